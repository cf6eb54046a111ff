//! A variable argument list, read by the function that was called (REFERENCE 15).

use crate::abi::Abi;
use crate::call::Call;
use crate::numbers::Refusal;
use crate::values::Scalar;
use crate::{entries, ffi};

/// A variable argument list of [`Abi::SYSV_AMD64`]: what a function that ends in dots finds there,
/// scalar by scalar.
///
/// It is lent two areas, which nothing writes to. The register save area has six places of 8 bytes,
/// one for each integer register, then eight of 16, one for each float register. The overflow area is
/// the stack's argument area, and starts at an address that 16 divides. [`Offsets`] say how far both
/// are read. From a `va_list` of C they are had so:
///
/// - The save area is at `reg_save_area` and has [`SAVE_BYTES`](Self::SAVE_BYTES).
/// - The overflow area is at `overflow_arg_area`, as far as the arguments reach. Where 16 doesn't
///   divide that address it starts at the next one below that 16 divides.
/// - The offsets into the save area are `gp_offset` and `fp_offset`; that into the overflow area is
///   how far `overflow_arg_area` is behind its start.
///
/// As with `va_arg`, a list doesn't say what is in it: the function has to know what to ask for.
///
/// ```
/// use barkpaddle::{Abi, Call, Kind, Offsets, Refusal, Scalar, VaList};
///
/// // A function with one named integer was passed an integer, a double and an x87 value behind it.
/// let mut save = [0; VaList::SAVE_BYTES];
/// save[8..16].copy_from_slice(&7_u64.to_le_bytes());
/// save[48..56].copy_from_slice(&2.5_f64.to_le_bytes());
/// let overflow = [1; 16];
///
/// let named = Call::fresh(Abi::SYSV_AMD64)?.argument(Scalar::integer(4), &mut [])?.next;
/// let mut list = VaList::new(&save, &overflow, Offsets::after(named)?);
/// assert_eq!(list.next(Scalar::integer(8))?, 7_u64.to_le_bytes());
/// assert_eq!(list.next(Scalar::new(Kind::Double, 8, 8))?, 2.5_f64.to_le_bytes());
/// let x87 = Scalar::new(Kind::X87Extended, 16, 16);
/// assert_eq!(list.next(x87)?, overflow);
///
/// // Behind the end of the overflow area a read is refused, and changes nothing.
/// let kept = list.offsets();
/// assert_eq!(kept, Offsets { integer: 16, float: 64, overflow: 16 });
/// assert_eq!(list.next(x87), Err(Refusal::BadArea));
/// assert_eq!(list.offsets(), kept);
/// # Ok::<(), barkpaddle::Refusal>(())
/// ```
// It isn't Copy: a copy that is moved on in the list's stead would go unnoticed.
#[derive(Debug, Clone, PartialEq, Eq, Hash)]
pub struct VaList<'a> {
    save: &'a [u8],
    overflow: &'a [u8],
    offsets: Offsets,
}

impl<'a> VaList<'a> {
    /// The bytes of a register save area.
    pub const SAVE_BYTES: usize = 176;

    /// A list over these areas that is read from these offsets on. Each read checks them.
    #[must_use]
    pub const fn new(save: &'a [u8], overflow: &'a [u8], offsets: Offsets) -> Self {
        Self { save, overflow, offsets }
    }

    /// How far the list is read.
    #[must_use]
    pub const fn offsets(&self) -> Offsets {
        self.offsets
    }

    /// The bytes of the next scalar, which are as many as its size: a part of the area that holds
    /// them. The offsets move on behind it.
    ///
    /// # Errors
    ///
    /// The first of these that applies. The offsets stay then.
    ///
    /// 1. [`Refusal::BadKind`]: the kind has no name.
    /// 2. [`Refusal::BadSize`]: the size isn't the format's own (4, 8, 16 and 16), or, of an integer,
    ///    none of 1, 2, 4, 8 and 16.
    /// 3. [`Refusal::BadAlign`]: the alignment isn't the size.
    /// 4. [`Refusal::BadArea`]: the save area hasn't [`SAVE_BYTES`](Self::SAVE_BYTES), or an offset
    ///    into it is no place and not the end ([`Offsets`]), whichever area the scalar is in; or the
    ///    scalar is in the overflow area, and that ends before the scalar's last byte.
    pub fn next(&mut self, scalar: Scalar) -> Result<&'a [u8], Refusal> {
        let Offsets { integer, float, overflow } = self.offsets;
        let offsets = [integer, float, overflow];
        let part = entries::read_scalar(self.save, self.overflow, offsets, scalar);
        Refusal::check(part.refusal)?;
        // An accepted part lies in its area, as is proved, so there are bytes. Only a library that
        // isn't this crate's could name an area that has no name here.
        let bytes = self.bytes(&part).ok_or(Refusal::BadArea)?;
        self.offsets = Offsets {
            integer: part.gp_offset,
            float: part.fp_offset,
            overflow: part.overflow_offset,
        };
        Ok(bytes)
    }

    /// The bytes of a part, where it lies in one of the two areas.
    fn bytes(&self, part: &ffi::Part) -> Option<&'a [u8]> {
        let area = match part.area {
            ffi::AREA_SAVE => self.save,
            ffi::AREA_OVERFLOW => self.overflow,
            _ => return None,
        };
        let [start, length] = [part.start, part.length].map(usize::try_from);
        area.get(start.ok()?..)?.get(..length.ok()?)
    }
}

/// How far the areas of a [`VaList`] are read, each counted from its area's start.
#[derive(Debug, Clone, Copy, PartialEq, Eq, Hash)]
pub struct Offsets {
    /// The next integer place of the save area: 0, 8, .., 40, or
    /// [`INTEGER_END`](Self::INTEGER_END) where none is left.
    pub integer: u64,
    /// The next float place of the save area: [`FLOAT_START`](Self::FLOAT_START), 64, .., 160, or
    /// [`FLOAT_END`](Self::FLOAT_END) where none is left.
    pub float: u64,
    /// Where the overflow area is read on. Behind a scalar that doesn't fill its last eight bytes
    /// this may be past the area's end.
    pub overflow: u64,
}

impl Offsets {
    /// The end of the integer places.
    pub const INTEGER_END: u64 = 48;
    /// The first float place.
    pub const FLOAT_START: u64 = 48;
    /// The end of the float places.
    pub const FLOAT_END: u64 = 176;

    /// The offsets at which a list starts, behind the named parameters. `call` is what these and the
    /// result have left: the one that the first argument after the dots is asked of. Its
    /// [`stack`](Call::stack) is the offset into the overflow area, which is then lent from the first
    /// stack argument on. Where it is lent from elsewhere on, that offset is changed:
    ///
    /// ```
    /// use barkpaddle::{Abi, Aggregate, Call, Offsets};
    ///
    /// // A record of 24 bytes is on the stack.
    /// let call = Call::fresh(Abi::SYSV_AMD64)?.argument(Aggregate::new(24, 8, &[]), &mut [])?.next;
    /// let offsets = Offsets::after(call)?;
    /// assert_eq!(offsets, Offsets { integer: 0, float: 48, overflow: 24 });
    /// // Lent from 16 on, which is a multiple of 16 as well.
    /// let from_16 = Offsets { overflow: offsets.overflow - 16, ..offsets };
    /// assert_eq!(from_16.overflow, 8);
    /// # Ok::<(), barkpaddle::Refusal>(())
    /// ```
    ///
    /// # Errors
    ///
    /// [`Refusal::BadAbi`] where the call isn't one of [`Abi::SYSV_AMD64`], the only description
    /// whose lists are read here; then [`Refusal::BadCall`] where it has more registers left than
    /// there are, the integers-only mark, or a stack offset above
    /// [`MOST_STACK`](crate::limits::MOST_STACK).
    pub fn after(call: Call) -> Result<Self, Refusal> {
        if call.abi() != Abi::SYSV_AMD64 {
            return Err(Refusal::BadAbi);
        }
        // It is such a call, and that leaves its numbers as they are; but it is checked.
        let call = call.variadic()?;
        Ok(Self {
            integer: Self::INTEGER_END - 8 * call.integer_left(),
            float: Self::FLOAT_END - 16 * call.float_left(),
            overflow: call.stack(),
        })
    }
}

#[cfg(test)]
mod tests {
    use super::*;
    use crate::numbers::Kind;

    const AT: Offsets = Offsets { integer: 0, float: 48, overflow: 0 };

    /// The seven numbers of an answer, of which a list shows a part only: it keeps its offsets where
    /// it is refused, and looks for itself whether a part lies in its area.
    #[test]
    fn what_the_entry_answers() {
        let answer = |length: usize, offsets: [u64; 3], scalar: Scalar| {
            let overflow = &[0; 64][..length];
            let part = entries::read_scalar(&[0; VaList::SAVE_BYTES], overflow, offsets, scalar);
            let next = [part.gp_offset, part.fp_offset, part.overflow_offset];
            ([part.refusal, part.area, part.start, part.length], next)
        };
        let x87 = Scalar::new(Kind::X87Extended, 16, 16);
        assert_eq!(answer(0, [8, 64, 9], Scalar::integer(16)), ([0, 1, 8, 16], [24, 64, 9]));
        assert_eq!(answer(0, [8, 64, 9], Scalar::integer(1)), ([0, 1, 8, 1], [16, 64, 9]));
        assert_eq!(answer(32, [8, 64, 8], x87), ([0, 2, 16, 16], [8, 64, 32]));
        assert_eq!(answer(31, [8, 64, 8], x87), ([8, 0, 0, 0], [8, 64, 8]));
        assert_eq!(answer(4, [48, 64, 0], Scalar::integer(4)), ([0, 2, 0, 4], [48, 64, 8]));
        assert_eq!(answer(3, [48, 64, 0], Scalar::integer(4)), ([8, 0, 0, 0], [48, 64, 0]));
        let last = [8, 64, u64::MAX];
        assert_eq!(answer(64, last, x87), ([8, 0, 0, 0], last));
        for (number, scalar) in [
            (4, Scalar::new(Kind::Unnamed(5), 16, 16)),
            (5, Scalar::new(Kind::X87Extended, 12, 4)),
            (6, Scalar::new(Kind::X87Extended, 16, 8)),
        ] {
            let wrong = [7, 47, u64::MAX];
            assert_eq!(answer(0, wrong, scalar), ([number, 0, 0, 0], wrong));
            assert_eq!(answer(0, wrong, x87), ([8, 0, 0, 0], wrong));
        }
    }

    fn part(area: u64, start: u64, length: u64) -> ffi::Part {
        let (gp_offset, fp_offset, overflow_offset) = (0, 0, 0);
        ffi::Part { refusal: 0, area, start, length, gp_offset, fp_offset, overflow_offset }
    }

    #[test]
    fn a_part_is_cut_out_of_its_area() {
        let list = VaList::new(&[1, 2, 3, 4], &[5, 6, 7], AT);
        assert_eq!(list.bytes(&part(ffi::AREA_SAVE, 1, 3)), Some(&[2, 3, 4][..]));
        assert_eq!(list.bytes(&part(ffi::AREA_OVERFLOW, 1, 2)), Some(&[6, 7][..]));
    }

    /// The library answers no such part. One that did would be told, and nothing would panic.
    #[test]
    fn a_part_that_lies_in_no_area_has_no_bytes() {
        let list = VaList::new(&[1, 2, 3, 4], &[5, 6, 7], AT);
        for area in [0, 3, u64::MAX] {
            assert_eq!(list.bytes(&part(area, 0, 1)), None);
        }
        for (start, length) in [(0, 4), (1, 3), (4, 0), (u64::MAX, 1), (1, u64::MAX)] {
            assert_eq!(list.bytes(&part(ffi::AREA_OVERFLOW, start, length)), None);
        }
    }
}
