//! For the crate `zerocopy`: structs of octets seen as octets, and octets seen as such structs.

/// Any octets of the right number make a value.
///
/// # Safety
/// Only for `repr(C)` structs whose fields are all of this module's `big_endian`: alignment 1 and no padding.
pub unsafe trait FromBytes: Sized {
    fn ref_from_bytes(octets: &[u8]) -> Result<&Self, WrongSize> {
        if octets.len() != size_of::<Self>() {
            return Err(WrongSize);
        }
        // SAFETY: the size was tested, and the trait's implementors take any octets at any address.
        Ok(unsafe { &*octets.as_ptr().cast::<Self>() })
    }
}

/// Every octet of a value is set.
///
/// # Safety
/// As for [`FromBytes`].
pub unsafe trait IntoBytes: Sized {
    fn as_bytes(&self) -> &[u8] {
        let first = std::ptr::from_ref(self).cast::<u8>();
        // SAFETY: the trait's implementors have no padding, so all their octets are set.
        unsafe { std::slice::from_raw_parts(first, size_of::<Self>()) }
    }
}

/// # Safety
/// Nothing rests on it here.
pub unsafe trait KnownLayout {}

/// # Safety
/// Nothing rests on it here.
pub unsafe trait Immutable {}

#[derive(Debug)]
pub struct WrongSize;

/// Numbers whose octets stand highest first.
pub mod big_endian {
    macro_rules! number {
        ($name:ident, $value:ty, $size:literal) => {
            #[repr(transparent)]
            pub struct $name([u8; $size]);

            impl $name {
                pub const fn new(value: $value) -> Self {
                    $name(value.to_be_bytes())
                }

                pub const fn get(&self) -> $value {
                    <$value>::from_be_bytes(self.0)
                }
            }
        };
    }

    number!(U16, u16, 2);
    number!(U32, u32, 4);
}
