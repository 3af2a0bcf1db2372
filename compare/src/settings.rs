use crate::codes::{numbered, NetworkMode, Parameter};
use crate::matcher::SecurityLevel;

/// The value of Timeout that has no end; each second adds one.
pub(crate) const NO_TIMEOUT: u32 = 0x30;

/// The longest time that a finger is awaited.
const MOST_SECONDS: u32 = 20;

numbered! {
    /// How many fingers and templates an enrolment takes.
    EnrollMode {
        Once = 0x30,
        Twice = 0x31,
        TwoTemplates = 0x41,
    }
}

impl EnrollMode {
    /// How many templates an enrolment by fingers gives.
    pub(crate) fn templates(self) -> usize {
        match self {
            EnrollMode::Once | EnrollMode::Twice => 1,
            EnrollMode::TwoTemplates => 2,
        }
    }
}

numbered! {
    Switch {
        Off = 0x30,
        On = 0x31,
    }
}

/// The system parameters that can be written.
pub(crate) struct Settings {
    /// How many seconds a finger is awaited; 0 means without end.
    pub timeout: u8,
    pub enroll: EnrollMode,
    pub security: SecurityLevel,
    /// Whether a good scan is answered before its outcome.
    pub scans: Switch,
    pub network: NetworkMode,
}

impl Settings {
    pub fn new() -> Settings {
        Settings {
            timeout: 10,
            enroll: EnrollMode::TwoTemplates,
            security: SecurityLevel::OneIn100k,
            scans: Switch::On,
            network: NetworkMode::Single,
        }
    }

    /// Writes a parameter; none if it cannot be written, or does not take the value.
    pub fn write(&mut self, parameter: Parameter, value: u32) -> Option<()> {
        let byte = u8::try_from(value).ok()?;
        match parameter {
            Parameter::Timeout => {
                let seconds = value.checked_sub(NO_TIMEOUT)?;
                if seconds > MOST_SECONDS {
                    return None;
                }
                self.timeout = seconds as u8;
            }
            Parameter::EnrollMode => self.enroll = EnrollMode::from_byte(byte)?,
            Parameter::SecurityLevel => self.security = SecurityLevel::from_byte(byte)?,
            Parameter::SendScanSuccess => self.scans = Switch::from_byte(byte)?,
            Parameter::NetworkMode => self.network = NetworkMode::from_byte(byte)?,
            _ => return None,
        }
        Some(())
    }
}
