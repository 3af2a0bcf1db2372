//! The packets of the host line.

use crate::codes::{Command, NetworkMode, Refusal};

const STANDARD_START: u8 = 0x40;
const NETWORK_START: u8 = 0x41;
pub(crate) const END_CODE: u8 = 0x0A;

const STANDARD_LENGTH: usize = 13;
const NETWORK_LENGTH: usize = 15;

/// The bytes of a master password.
pub(crate) const PASSWORD_LENGTH: usize = 16;

/// The two forms of a packet.
#[derive(Clone, Copy, PartialEq, Eq, Debug)]
pub enum Form {
    Standard,
    /// With a terminal number; 0 means every module.
    Network(u16),
}

impl Form {
    /// The form in which the module `own` answers; none for a broadcast.
    pub(crate) fn reply(self, own: u16) -> Option<Form> {
        match self {
            Form::Standard => Some(Form::Standard),
            Form::Network(0) => None,
            Form::Network(_) => Some(Form::Network(own)),
        }
    }
}

/// The fields that requests and responses share.
#[derive(Clone, Copy, PartialEq, Eq, Debug)]
pub(crate) struct Fields {
    pub command: u8,
    pub param: u32,
    pub size: u32,
    /// The flag of a request, the code of a response.
    pub flag: u8,
}

impl Fields {
    fn from_bytes(bytes: &[u8; 10]) -> Fields {
        let [command, p0, p1, p2, p3, s0, s1, s2, s3, flag] = *bytes;
        Fields {
            command,
            param: u32::from_le_bytes([p0, p1, p2, p3]),
            size: u32::from_le_bytes([s0, s1, s2, s3]),
            flag,
        }
    }

    fn to_bytes(self) -> [u8; 10] {
        let [p0, p1, p2, p3] = self.param.to_le_bytes();
        let [s0, s1, s2, s3] = self.size.to_le_bytes();
        [self.command, p0, p1, p2, p3, s0, s1, s2, s3, self.flag]
    }
}

fn checksum(bytes: &[u8]) -> u8 {
    bytes.iter().fold(0, |sum, byte| sum.wrapping_add(*byte))
}

/// The sum that goes with a password.
pub(crate) fn password_sum(password: &[u8; PASSWORD_LENGTH]) -> u16 {
    password.iter().map(|&byte| u16::from(byte)).sum()
}

/// The packet of `N` bytes at the front of a frame, and what stands behind it.
fn split_packet<const N: usize>(frame: &[u8], start: u8) -> Result<(&[u8; N], &[u8]), Refusal> {
    let (packet, rest) = frame.split_first_chunk::<N>().ok_or(Refusal::TooShort)?;
    if packet[0] != start {
        return Err(Refusal::StartCode);
    }
    if packet[N - 1] != END_CODE {
        return Err(Refusal::EndCode);
    }
    if packet[N - 2] != checksum(&packet[..N - 2]) {
        return Err(Refusal::Checksum);
    }
    Ok((packet, rest))
}

fn split_standard(frame: &[u8]) -> Result<(Form, Fields, &[u8]), Refusal> {
    let (packet, rest) = split_packet::<STANDARD_LENGTH>(frame, STANDARD_START)?;
    let [_, fields @ .., _, _] = packet;
    Ok((Form::Standard, Fields::from_bytes(fields), rest))
}

fn split_network(frame: &[u8]) -> Result<(Form, Fields, &[u8]), Refusal> {
    let (packet, rest) = split_packet::<NETWORK_LENGTH>(frame, NETWORK_START)?;
    let [_, t0, t1, fields @ .., _, _] = packet;
    let form = Form::Network(u16::from_le_bytes([*t0, *t1]));
    Ok((form, Fields::from_bytes(fields), rest))
}

/// Writes a packet of `N` bytes from its start and its fields.
fn put_packet<const N: usize>(out: &mut [u8], start: &[u8], fields: Fields) -> usize {
    let mut packet = [0; N];
    packet[..start.len()].copy_from_slice(start);
    packet[start.len()..N - 2].copy_from_slice(&fields.to_bytes());
    packet[N - 2] = checksum(&packet[..N - 2]);
    packet[N - 1] = END_CODE;
    out[..N].copy_from_slice(&packet);
    N
}

/// Writes a packet without data at the front of `out`, and says how long it is.
pub(crate) fn write_packet(out: &mut [u8], form: Form, fields: Fields) -> usize {
    match form {
        Form::Standard => put_packet::<STANDARD_LENGTH>(out, &[STANDARD_START], fields),
        Form::Network(terminal) => {
            let [t0, t1] = terminal.to_le_bytes();
            put_packet::<NETWORK_LENGTH>(out, &[NETWORK_START, t0, t1], fields)
        }
    }
}

/// A request.
#[derive(Clone, Copy, PartialEq, Eq, Debug)]
pub struct Request<'a> {
    pub form: Form,
    /// The command's byte, which may be unknown.
    pub command: u8,
    pub param: u32,
    pub size: u32,
    pub flag: u8,
    /// What stands behind the packet.
    pub data: &'a [u8],
}

impl<'a> Request<'a> {
    /// Reads a frame, as the module `own` hears it.
    pub fn read(frame: &'a [u8], mode: NetworkMode, own: u16) -> Result<Self, Refusal> {
        let (form, fields, rest) = match mode {
            NetworkMode::Single => split_standard(frame)?,
            NetworkMode::Network => split_network(frame)?,
        };
        if let Form::Network(terminal) = form {
            if terminal != own && terminal != 0 {
                return Err(Refusal::Terminal);
            }
        }
        let Fields {
            command,
            param,
            size,
            flag,
        } = fields;
        let data = request_data(command, size, rest)?;
        Ok(Request {
            form,
            command,
            param,
            size,
            flag,
            data,
        })
    }

    /// The bytes of its frame.
    pub fn to_frame(&self) -> Vec<u8> {
        let Request {
            form,
            command,
            param,
            size,
            flag,
            data,
        } = *self;
        let mut frame = vec![0; NETWORK_LENGTH];
        let length = write_packet(
            &mut frame,
            form,
            Fields {
                command,
                param,
                size,
                flag,
            },
        );
        frame.truncate(length);
        if carries_data(command) {
            frame.extend_from_slice(data);
            frame.push(END_CODE);
        }
        frame
    }
}

fn carries_data(command: u8) -> bool {
    Command::from_byte(command).is_some_and(Command::asks_with_data)
}

/// The data of a request, out of what stands behind its packet.
fn request_data(command: u8, size: u32, rest: &[u8]) -> Result<&[u8], Refusal> {
    match rest {
        [] if !carries_data(command) => Ok(rest),
        [data @ .., END_CODE] if carries_data(command) && data.len() == size as usize => Ok(data),
        _ => Err(Refusal::DataLength),
    }
}
