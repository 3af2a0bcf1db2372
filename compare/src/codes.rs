//! The numbers of the host line's protocol.

/// An enum whose cases have numbers of one byte, and the case of a byte.
macro_rules! numbered {
    ($(#[$doc:meta])* $name:ident { $($case:ident = $byte:literal,)* }) => {
        $(#[$doc])*
        #[derive(Clone, Copy, PartialEq, Eq, Debug)]
        pub enum $name {
            $($case = $byte,)*
        }

        impl $name {
            pub fn from_byte(byte: u8) -> Option<Self> {
                match byte {
                    $($byte => Some(Self::$case),)*
                    _ => None,
                }
            }
        }
    };
}

pub(crate) use numbered;

numbered! {
    /// What a request asks.
    Command {
        WriteParameter = 0x01,
        ReadParameter = 0x03,
        Enroll = 0x05,
        EnrollTemplate = 0x07,
        Verify = 0x08,
        Identify = 0x11,
        ReadTemplate = 0x14,
        Delete = 0x16,
        DeleteAll = 0x17,
        ListTemplates = 0x18,
        Cancel = 0x60,
        WriteLevel = 0x65,
        EnrollByAdministrator = 0x70,
        DeleteByAdministrator = 0x72,
        Unlock = 0xB0,
        Lock = 0xB1,
        ChangePassword = 0xB2,
    }
}

impl Command {
    /// Whether a request of this command carries data.
    pub fn asks_with_data(self) -> bool {
        matches!(
            self,
            Command::EnrollTemplate | Command::Unlock | Command::ChangePassword
        )
    }
}

numbered! {
    /// How a request went.
    Code {
        Success = 0x61,
        ScanSuccess = 0x62,
        ScanFail = 0x63,
        NotFound = 0x69,
        NotMatch = 0x6A,
        TryAgain = 0x6B,
        TimeOut = 0x6C,
        MemFull = 0x6D,
        ExistId = 0x6E,
        FingerLimit = 0x72,
        Continue = 0x74,
        Unsupported = 0x75,
        InvalidId = 0x76,
        Busy = 0x80,
        Canceled = 0x81,
        ExistFinger = 0x86,
        Locked = 0xA1,
    }
}

numbered! {
    /// How an enrolment treats what is held.
    EnrollFlag {
        Replace = 0x00,
        CheckId = 0x70,
        AddNew = 0x71,
        AutoId = 0x79,
        CheckFinger = 0x84,
    }
}

numbered! {
    /// The system parameters.
    Parameter {
        Timeout = 0x62,
        TemplateSize = 0x64,
        EnrollMode = 0x65,
        SecurityLevel = 0x66,
        ModuleId = 0x6D,
        EnrolledFinger = 0x73,
        AvailableFinger = 0x74,
        SendScanSuccess = 0x75,
        NetworkMode = 0x83,
    }
}

numbered! {
    /// Which form of packets a module hears.
    NetworkMode {
        Single = 0x30,
        Network = 0x31,
    }
}

/// Why a call is refused, in the order of the tests.
#[derive(Clone, Copy, PartialEq, Eq, Debug)]
pub enum Refusal {
    /// The answer buffer is under 2,048 bytes.
    AnswerBuffer = 1,
    /// The work buffer is under 384 bytes.
    WorkBuffer = 2,
    /// The frame is shorter than a packet.
    TooShort = 3,
    StartCode = 4,
    EndCode = 5,
    Checksum = 6,
    /// The terminal number is neither the module's own nor 0.
    Terminal = 7,
    /// The data behind the packet has another length, or no end code behind it.
    DataLength = 8,
}
