//! A stand-in for the crate of this name: what the original sources use of it and no more.

#[derive(Debug, Clone, Copy, PartialEq, Eq)]
pub enum Arch {
    X86,
    X86_64,
    Aarch64,
    Arm,
    Arm64Ec,
    LoongArch64,
    PowerPc64,
    Riscv32,
    Riscv64,
    S390x,
    Wasm32,
}

#[derive(Debug, Clone, Copy, PartialEq, Eq)]
pub enum Os {
    Windows,
    MacOs,
    IOs,
    NetBsd,
    Linux,
}

impl Os {
    pub const fn is_darwin(self) -> bool {
        matches!(self, Self::MacOs | Self::IOs)
    }
}

#[derive(Debug, Clone, Copy, PartialEq, Eq)]
pub enum Env {
    Gnu,
    Msvc,
}

/// What a target is, as far as the lookups read it.
#[derive(Debug, Clone, Copy, PartialEq, Eq)]
pub struct TargetTuple {
    pub arch: Arch,
    pub os: Os,
    pub env: Env,
}

impl TargetTuple {
    pub const fn arch(self) -> Arch {
        self.arch
    }

    pub const fn os(self) -> Os {
        self.os
    }

    pub const fn env(self) -> Env {
        self.env
    }
}

/// What the data layout reads besides. The oracle asks for no layout, so nobody needs an answer.
mod unasked {
    use super::TargetTuple;

    #[derive(Debug, Clone, Copy, PartialEq, Eq)]
    pub enum DataModel {
        Ilp32,
        Lp64,
    }

    impl DataModel {
        pub fn int_width(self) -> u32 {
            unimplemented!()
        }

        pub fn long_width(self) -> u32 {
            unimplemented!()
        }

        pub fn long_long_width(self) -> u32 {
            unimplemented!()
        }
    }

    impl TargetTuple {
        pub fn data_model(self) -> DataModel {
            unimplemented!()
        }

        pub fn pointer_width(self) -> u32 {
            unimplemented!()
        }

        pub fn char_is_signed(self) -> bool {
            unimplemented!()
        }

        pub fn leading_underscore(self) -> bool {
            unimplemented!()
        }

        pub fn is_little_endian(self) -> bool {
            unimplemented!()
        }
    }
}

pub use unasked::DataModel;
