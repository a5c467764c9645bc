//! Stand-in for serde: only the names that expr.rs needs to compile.
//! Nothing is ever read through it.

pub mod de {
    use std::fmt::Display;

    pub trait Error: Sized {
        fn custom<T: Display>(message: T) -> Self;
    }

    pub trait Deserializer<'de>: Sized {
        type Error: Error;
    }
}

pub trait Deserialize<'de>: Sized {
    fn deserialize<D: de::Deserializer<'de>>(deserializer: D) -> Result<Self, D::Error>;
}

// For every type, so that the derive can emit nothing.
impl<'de, T> Deserialize<'de> for T {
    fn deserialize<D: de::Deserializer<'de>>(_: D) -> Result<Self, D::Error> {
        Err(<D::Error as de::Error>::custom("stand-in: nothing is read"))
    }
}
