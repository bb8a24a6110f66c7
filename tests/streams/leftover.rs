//! Numbers left in the sign lengths of streams that have no sign subpackets.

use crate::rng::Rng;
use crate::stream::{Content, Field, Stream};

#[derive(Clone, Copy)]
enum Way {
    Ones,
    Small,
    Random,
    OnlyLast,
}

/// Leaves numbers in the sign lengths of one stream in three. With Fs = 0 the field is "present, but is ignored"
/// (Table C.4), and makers leave any number there (document 02, C-11).
pub fn leave(rng: &mut Rng, stream: &mut Stream) {
    if !rng.once_in(3) {
        return;
    }
    let way = rng.pick(&[Way::Ones, Way::Small, Way::Random, Way::OnlyLast]);
    let small = rng.between(1, 8);
    let fields = sign_lengths(stream);
    let first = if let Way::OnlyLast = way { fields.len() - 1 } else { 0 };
    for field in &fields[first..] {
        let ones = (1 << field.width) - 1;
        let number = match way {
            Way::Ones => ones,
            Way::Small => small,
            Way::Random | Way::OnlyLast => rng.between(1, ones),
        };
        field.set(&mut stream.bytes, number as u64);
    }
}

/// L_sgn of every packet header, which is there with Fs = 0 too.
fn sign_lengths(stream: &Stream) -> Vec<Field> {
    stream.subpackets_of(Content::Signs).iter().map(|subpacket| subpacket.length).collect()
}

#[cfg(test)]
mod tests {
    use super::*;
    use crate::setting::SMALL;
    use crate::{sound, Kind};

    /// Sound streams with Fs = 0, of each kind as many.
    fn streams() -> impl Iterator<Item = Stream> {
        let kinds = [Kind::Syntax, Kind::Picture, Kind::Coefficients];
        let streams = (0..3_000).map(move |n| sound(&mut Rng::new(n), kinds[n as usize % 3], SMALL).0);
        streams.filter(|stream| !independent::a::header(&stream.bytes).unwrap().fs)
    }

    #[test]
    fn a_third_of_the_streams_carry_numbers() {
        let (mut some, mut all) = ([0; 2], [0; 2]);
        for stream in streams() {
            let fields = sign_lengths(&stream);
            let long = usize::from(fields[0].width == 15);
            some[long] += usize::from(fields.iter().any(|field| field.get(&stream.bytes) != 0));
            all[long] += 1;
        }
        for (some, all) in some.into_iter().zip(all) {
            assert!(all > 300 && (all / 4..all * 5 / 12).contains(&some), "{some} of {all}");
        }
    }

    #[test]
    fn twins_without_the_numbers_read_alike() {
        for stream in streams() {
            let mut cleared = stream.bytes.clone();
            sign_lengths(&stream).iter().for_each(|field| field.set(&mut cleared, 0));
            let pages = [&stream.bytes, &cleared].map(|bytes| independent::read(bytes, SMALL.samples).unwrap());
            assert_eq!(pages[0], pages[1]);
        }
    }
}
