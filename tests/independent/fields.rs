//! The fixed list of what a rule can speak of, with the names that are printed (document 02, C-19).

macro_rules! fields {
    ($($field:ident $name:literal)*) => {
        /// What a rule speaks of: a field of the stream, a number that is counted from it, or a lent buffer.
        #[derive(Clone, Copy, Debug, PartialEq, Eq)]
        pub enum Field {
            $($field),*
        }

        /// All of them, in the order of the list.
        pub const ALL: &[Field] = &[$(Field::$field),*];

        impl Field {
            pub fn name(self) -> &'static str {
                match self {
                    $(Field::$field => $name),*
                }
            }
        }
    };
}

fields! {
    Soc "SOC start marker"
    Cap "CAP capabilities marker"
    Lcap "Lcap capabilities length"
    Pih "PIH picture header marker"
    Lpih "Lpih picture header length"
    Lcod "Lcod stream length"
    Wf "Wf width"
    Hf "Hf height"
    Hsl "Hsl slice height"
    Nc "Nc number of components"
    Ng "Ng code group size"
    Ss "Ss significance group size"
    Bw "Bw wavelet precision"
    Fq "Fq fractional bits"
    Br "Br bits of a raw count"
    Fslc "Fslc slice coding mode"
    Ppoc "Ppoc progression order"
    Cpih "Cpih colour transform"
    Nlx "NLx levels across"
    Nly "NLy levels down"
    Qpih "Qpih quantiser"
    Fs "Fs sign handling"
    Rm "Rm run mode"
    Next "marker"
    Cdt "component tables"
    Wgt "weights tables"
    Nlt "non-linear output segments"
    Cwd "CWD segments"
    Cts "colour transform segments"
    Crg "component registrations"
    Tpc "temporal control segments"
    Wgr "refresh weights tables"
    Sli "temporal slice headers"
    Lcdt "Lcdt component table length"
    B "B component precision"
    Sx "sx sampling across"
    Sy "sy sampling down"
    Cw "width modulo precinct column"
    Across "samples joined by a filter across"
    Down "samples joined by a filter down"
    Lwgt "Lwgt weights table length"
    G "gain"
    Lcom "Lcom extension length"
    Tcom "Tcom extension type"
    Lcrg "Lcrg registration length"
    Lcwd "Lcwd CWD length"
    Sd "Sd undecomposed components"
    Samples "sample cells"
    Work "work cells"
    Marks "marks in bytes"
    Distances "distance cells"
    Slh "SLH slice marker"
    Lslh "Lslh slice header length"
    Ysl "Ysl slice index"
    Lprc "Lprc precinct length"
    Precinct "whole precinct in bytes"
    Q "Q quantisation"
    R "R refinement"
    D "vertical prediction bit of D"
    Packet "packet header bytes"
    Dr "Dr raw flag"
    Significance "significance bytes"
    Counts "Lcnt count bytes"
    M "bitplane count"
    Ones "one-bits of a count code"
    Data "Ldat data bytes"
    Signs "Lsgn sign bytes"
    Rest "bytes behind the last packet"
    Eoc "EOC end marker"
    Tail "bytes behind the end marker"
}

impl Field {
    /// Whether the standard writes what the field holds as a code, in hexadecimal digits.
    pub fn holds_a_code(self) -> bool {
        use Field::*;
        matches!(self, Soc | Cap | Pih | Next | Slh | Eoc | Tcom)
    }
}

#[cfg(test)]
mod tests {
    use super::*;

    /// One name for one meaning.
    #[test]
    fn names_differ() {
        let mut names: Vec<&str> = ALL.iter().map(|field| field.name()).collect();
        names.sort_unstable();
        names.dedup();
        assert_eq!((names.len(), ALL.len()), (70, 70));
    }
}
