//! Sets of flags, with the calls that the crate `bitflags` gives to a set.

/// The flags of a set, in declared order, and then its bits without a name as one set.
#[derive(Clone, Debug)]
pub struct FlagIter<F: 'static> {
    left: u8,
    table: core::slice::Iter<'static, (&'static str, u8)>,
    set_of: fn(u8) -> F,
}

impl<F> FlagIter<F> {
    pub(crate) fn new(bits: u8, table: &'static [(&'static str, u8)], set_of: fn(u8) -> F) -> FlagIter<F> {
        FlagIter { left: bits, table: table.iter(), set_of }
    }

    /// The next flag that has a name.
    fn next_named(&mut self) -> Option<(&'static str, F)> {
        let left = self.left;
        let &(name, bit) = self.table.find(|(_, bit)| left & bit != 0)?;
        self.left &= !bit;
        Some((name, (self.set_of)(bit)))
    }
}

impl<F> Iterator for FlagIter<F> {
    type Item = F;

    fn next(&mut self) -> Option<F> {
        if let Some((_, flag)) = self.next_named() {
            return Some(flag);
        }
        let left = core::mem::take(&mut self.left);
        (left != 0).then(|| (self.set_of)(left))
    }
}

/// The flags of a set that have a name, each with it.
#[derive(Clone, Debug)]
pub struct FlagNames<F: 'static>(pub(crate) FlagIter<F>);

impl<F> Iterator for FlagNames<F> {
    type Item = (&'static str, F);

    fn next(&mut self) -> Option<(&'static str, F)> {
        self.0.next_named()
    }
}

/// Writes names and ` | ` between them, and the bits without a name as `0x80`.
pub(crate) fn write_names(f: &mut impl core::fmt::Write, bits: u8, table: &[(&str, u8)]) -> core::fmt::Result {
    let mut left = bits;
    let mut between = "";
    for (name, bit) in table.iter().filter(|(_, bit)| bits & bit != 0) {
        write!(f, "{between}{name}")?;
        between = " | ";
        left &= !bit;
    }
    if left != 0 {
        write!(f, "{between}{left:#x}")?;
    }
    Ok(())
}

/// A set of flags in eight bits. `also` names constants that are no flags of their own: they aren't in `all`.
macro_rules! flags {
    ($(#[$doc:meta])* $name:ident {
        $($(#[$flag_doc:meta])* $flag:ident = $bit:expr;)*
    } also {
        $($(#[$also_doc:meta])* $also:ident = $also_bits:expr;)*
    }) => {
        $(#[$doc])*
        #[derive(Clone, Copy, Default, PartialEq, Eq, PartialOrd, Ord, Hash)]
        pub struct $name(u8);

        impl $name {
            $($(#[$flag_doc])* pub const $flag: $name = $name($bit);)*
            $($(#[$also_doc])* pub const $also: $name = $name($also_bits);)*

            pub(crate) const TABLE: &'static [(&'static str, u8)] = &[$((stringify!($flag), $bit)),*];

            /// The set without a bit.
            pub const fn empty() -> $name {
                $name(0)
            }

            /// The set of all flags.
            pub const fn all() -> $name {
                $name(0 $(| $bit)*)
            }

            /// The bits of the set.
            pub const fn bits(&self) -> u8 {
                self.0
            }

            /// The set of some bits, if each is a flag's.
            pub const fn from_bits(bits: u8) -> Option<$name> {
                if bits & !$name::all().0 == 0 { Some($name(bits)) } else { None }
            }

            /// The set of those of some bits that are a flag's.
            pub const fn from_bits_truncate(bits: u8) -> $name {
                $name(bits & $name::all().0)
            }

            /// The set of some bits, those without a name too.
            pub const fn from_bits_retain(bits: u8) -> $name {
                $name(bits)
            }

            /// The constant of a name.
            pub fn from_name(name: &str) -> Option<$name> {
                match name {
                    $(stringify!($flag) => Some($name::$flag),)*
                    $(stringify!($also) => Some($name::$also),)*
                    _ => None,
                }
            }

            /// Whether the set has no bit.
            pub const fn is_empty(&self) -> bool {
                self.0 == 0
            }

            /// Whether each flag is in the set.
            pub const fn is_all(&self) -> bool {
                self.contains($name::all())
            }

            /// Whether the two sets share a bit.
            pub const fn intersects(&self, other: $name) -> bool {
                self.0 & other.0 != 0
            }

            /// Whether each bit of the other set is in this one.
            pub const fn contains(&self, other: $name) -> bool {
                self.0 & other.0 == other.0
            }

            /// Adds the other set's bits.
            pub fn insert(&mut self, other: $name) {
                self.0 |= other.0;
            }

            /// Takes the other set's bits away.
            pub fn remove(&mut self, other: $name) {
                self.0 &= !other.0;
            }

            /// Turns each of the other set's bits over.
            pub fn toggle(&mut self, other: $name) {
                self.0 ^= other.0;
            }

            /// Adds the other set's bits, or with `false` takes them away.
            pub fn set(&mut self, other: $name, value: bool) {
                if value { self.insert(other) } else { self.remove(other) }
            }

            /// The bits that both sets have.
            #[must_use]
            pub const fn intersection(self, other: $name) -> $name {
                $name(self.0 & other.0)
            }

            /// The bits that either set has.
            #[must_use]
            pub const fn union(self, other: $name) -> $name {
                $name(self.0 | other.0)
            }

            /// The bits that the other set lacks.
            #[must_use]
            pub const fn difference(self, other: $name) -> $name {
                $name(self.0 & !other.0)
            }

            /// The bits that one of the sets has alone.
            #[must_use]
            pub const fn symmetric_difference(self, other: $name) -> $name {
                $name(self.0 ^ other.0)
            }

            /// The flags that the set lacks.
            #[must_use]
            pub const fn complement(self) -> $name {
                $name::from_bits_truncate(!self.0)
            }

            /// The flags of the set, and then its bits without a name as one set.
            pub fn iter(&self) -> $crate::FlagIter<$name> {
                $crate::FlagIter::new(self.0, $name::TABLE, $name)
            }

            /// The flags of the set, each with its name.
            pub fn iter_names(&self) -> $crate::FlagNames<$name> {
                $crate::FlagNames(self.iter())
            }
        }

        /// `NAME(ONE | TWO)`, and `NAME(0x0)` of the empty set.
        impl core::fmt::Debug for $name {
            fn fmt(&self, f: &mut core::fmt::Formatter<'_>) -> core::fmt::Result {
                if self.is_empty() {
                    return f.write_str(concat!(stringify!($name), "(0x0)"));
                }
                f.write_str(concat!(stringify!($name), "("))?;
                $crate::flags::write_names(f, self.0, $name::TABLE)?;
                f.write_str(")")
            }
        }

        $crate::flags::operators!($name: BitOr bitor BitOrAssign bitor_assign union);
        $crate::flags::operators!($name: BitAnd bitand BitAndAssign bitand_assign intersection);
        $crate::flags::operators!($name: BitXor bitxor BitXorAssign bitxor_assign symmetric_difference);
        $crate::flags::operators!($name: Sub sub SubAssign sub_assign difference);
        $crate::flags::formats!($name: Binary LowerHex Octal UpperHex);

        impl core::ops::Not for $name {
            type Output = $name;

            fn not(self) -> $name {
                self.complement()
            }
        }

        impl Extend<$name> for $name {
            fn extend<I: IntoIterator<Item = $name>>(&mut self, sets: I) {
                sets.into_iter().for_each(|set| self.insert(set));
            }
        }

        impl FromIterator<$name> for $name {
            fn from_iter<I: IntoIterator<Item = $name>>(sets: I) -> $name {
                sets.into_iter().fold($name(0), $name::union)
            }
        }

        impl IntoIterator for $name {
            type Item = $name;
            type IntoIter = $crate::FlagIter<$name>;

            fn into_iter(self) -> $crate::FlagIter<$name> {
                self.iter()
            }
        }
    };
}
pub(crate) use flags;

/// An operator of two sets, and the one that assigns.
macro_rules! operators {
    ($name:ident: $trait:ident $call:ident $assign:ident $assign_call:ident $as:ident) => {
        impl core::ops::$trait for $name {
            type Output = $name;

            fn $call(self, other: $name) -> $name {
                self.$as(other)
            }
        }

        impl core::ops::$assign for $name {
            fn $assign_call(&mut self, other: $name) {
                *self = self.$as(other);
            }
        }
    };
}
pub(crate) use operators;

/// The formats that show a set's bits as a number.
macro_rules! formats {
    ($name:ident: $($format:ident)*) => {$(
        impl core::fmt::$format for $name {
            fn fmt(&self, f: &mut core::fmt::Formatter<'_>) -> core::fmt::Result {
                core::fmt::$format::fmt(&self.0, f)
            }
        }
    )*};
}
pub(crate) use formats;
