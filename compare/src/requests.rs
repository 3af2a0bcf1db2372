//! What a module makes of a request.

use crate::administrators::{Level, Right};
use crate::codes::{Code, Command, EnrollFlag, Parameter};
use crate::line::{Line, Outcome};
use crate::matcher::Matcher;
use crate::memory::Memory;
use crate::module::{Awaited, Enrollment, Module};
use crate::packet::{password_sum, Request, PASSWORD_LENGTH};
use crate::phases::enroll;
use crate::search::{count_of, lowest_free_id, remove_all_of, IdRange};
use crate::settings::NO_TIMEOUT;
use std::ops::Range;

/// The most templates that an ID may have.
const MOST_TEMPLATES: usize = 10;

/// The bytes of a password and of its sum.
const SUMMED_LENGTH: usize = PASSWORD_LENGTH + 2;

/// What becomes of a request that does not fail.
enum Done {
    /// It waits for a finger.
    Waits,
    /// SUCCESS.
    Plain,
    /// SUCCESS with this in Param.
    Param(u32),
    /// SUCCESS with this in Size.
    Size(u32),
    /// SUCCESS with the IDs of the templates at these places.
    Ids(Range<usize>),
    /// SUCCESS with the template at a place.
    Template(usize),
}

/// The ID in Param.
fn id_in(param: u32) -> Result<u16, Code> {
    match u16::try_from(param) {
        Ok(id) if id != 0 => Ok(id),
        _ => Err(Code::InvalidId),
    }
}

/// The range in Param: 0 for all IDs, or the least in the low half and the greatest in the high half.
fn range_in(param: u32) -> Result<IdRange, Code> {
    let (least, greatest) = match param {
        0 => (1, u16::MAX),
        _ => (param as u16, (param >> 16) as u16),
    };
    if least == 0 || greatest < least {
        return Err(Code::InvalidId);
    }
    Ok(IdRange { least, greatest })
}

fn parameter_in(flag: u8) -> Result<Parameter, Code> {
    Parameter::from_byte(flag).ok_or(Code::Unsupported)
}

/// The level in a flag; none for 0.
fn level_in(flag: u8) -> Result<Option<Level>, Code> {
    match flag {
        0 => Ok(None),
        1 => Ok(Some(Level::Enroll)),
        2 => Ok(Some(Level::Delete)),
        3 => Ok(Some(Level::All)),
        _ => Err(Code::Unsupported),
    }
}

/// A password, which its sum stands behind.
fn password_in(data: &[u8]) -> Result<&[u8; PASSWORD_LENGTH], Code> {
    let Some((password, &[low, high])) = data.split_first_chunk() else {
        return Err(Code::Unsupported);
    };
    if u16::from_le_bytes([low, high]) != password_sum(password) {
        return Err(Code::TryAgain);
    }
    Ok(password)
}

/// Writes the IDs at places of a memory, four bytes each.
fn write_ids<S: Memory>(memory: &S, places: Range<usize>, out: &mut [u8]) {
    let (bytes, _) = out.as_chunks_mut();
    for (bytes, id) in bytes.iter_mut().zip(memory.ids().skip(places.start)) {
        *bytes = u32::from(id).to_le_bytes();
    }
}

impl<M: Matcher, S: Memory> Module<M, S> {
    /// A request has come.
    pub(crate) fn hear(&mut self, request: &Request, line: &mut Line) {
        let command = Command::from_byte(request.command);
        let result = if self.locked && command != Some(Command::Unlock) {
            Err(Code::Locked)
        } else if let Some(waiting) = self.waiting {
            if command == Some(Command::Cancel) {
                waiting.tell(line, Code::Canceled);
                self.waiting = None;
                Ok(Done::Plain)
            } else {
                Err(Code::Busy)
            }
        } else if let Some(command) = command {
            self.start(command, request)
        } else {
            Err(Code::Unsupported)
        };
        self.answer(request, result, line);
    }

    /// Answers what became of a request.
    fn answer(&self, request: &Request, result: Result<Done, Code>, line: &mut Line) {
        let form = request.form;
        let outcome = |param, size, code| Outcome {
            command: request.command,
            param,
            size,
            code,
        };
        let success = |param, size| outcome(param, size, Code::Success);
        match result {
            Ok(Done::Waits) => {}
            Ok(Done::Plain) => line.say(form, success(0, 0)),
            Ok(Done::Param(param)) => line.say(form, success(param, 0)),
            Ok(Done::Size(size)) => line.say(form, success(0, size)),
            Ok(Done::Ids(places)) => {
                let number = places.len() as u32;
                line.say_with(form, success(number, 4 * number), |out| {
                    write_ids(&self.memory, places, out)
                })
            }
            Ok(Done::Template(place)) => line.say_with(form, success(0, S::T as u32), |out| {
                out.copy_from_slice(self.memory.template(place))
            }),
            Err(code) => line.say(form, outcome(0, 0, code)),
        }
    }

    /// What each command does, while no request waits.
    fn start(&mut self, command: Command, request: &Request) -> Result<Done, Code> {
        match command {
            Command::WriteParameter => self.write_parameter(request),
            Command::ReadParameter => self.read_parameter(request),
            Command::Enroll => self.enroll(request),
            Command::EnrollTemplate => self.enroll_template(request),
            Command::Verify => self.verify(request),
            Command::Identify => self.identify(request),
            Command::ReadTemplate => self.read_template(request),
            Command::Delete => self.delete(request),
            Command::DeleteAll => self.delete_all(),
            Command::ListTemplates => self.list(request),
            Command::Cancel => Err(Code::NotFound),
            Command::WriteLevel => self.write_level(request),
            Command::EnrollByAdministrator => self.enroll_by_administrator(request),
            Command::DeleteByAdministrator => self.delete_by_administrator(request),
            Command::Unlock => self.unlock(request),
            Command::Lock => self.lock(),
            Command::ChangePassword => self.change_password(request),
        }
    }

    /// The ID in Param, if it has templates.
    fn held_id(&self, param: u32) -> Result<u16, Code> {
        let id = id_in(param)?;
        if !self.memory.ids().any(|held| held == id) {
            return Err(Code::NotFound);
        }
        Ok(id)
    }

    fn free_places(&self) -> usize {
        self.memory.capacity() - self.memory.count()
    }

    fn write_parameter(&mut self, request: &Request) -> Result<Done, Code> {
        let parameter = parameter_in(request.flag)?;
        let written = self.settings.write(parameter, request.size);
        written.map(|()| Done::Plain).ok_or(Code::Unsupported)
    }

    fn read_parameter(&self, request: &Request) -> Result<Done, Code> {
        Ok(Done::Size(match parameter_in(request.flag)? {
            Parameter::Timeout => NO_TIMEOUT + u32::from(self.settings.timeout),
            Parameter::TemplateSize => S::T as u32,
            Parameter::EnrollMode => self.settings.enroll as u32,
            Parameter::SecurityLevel => self.settings.security as u32,
            Parameter::ModuleId => u32::from(self.own),
            Parameter::EnrolledFinger => self.memory.count() as u32,
            Parameter::AvailableFinger => self.free_places() as u32,
            Parameter::SendScanSuccess => self.settings.scans as u32,
            Parameter::NetworkMode => self.settings.network as u32,
        }))
    }

    fn enroll(&mut self, request: &Request) -> Result<Done, Code> {
        let enrollment = self.enrollment(request, self.settings.enroll.templates(), false)?;
        let awaited = Awaited::FirstFinger(enrollment);
        self.wait_for(awaited, Command::Enroll, request.form);
        Ok(Done::Waits)
    }

    fn enroll_by_administrator(&mut self, request: &Request) -> Result<Done, Code> {
        let enrollment = self.enrollment(request, self.settings.enroll.templates(), true)?;
        let awaited = Awaited::GrantToEnroll(enrollment);
        self.wait_for(awaited, Command::EnrollByAdministrator, request.form);
        Ok(Done::Waits)
    }

    fn enroll_template(&mut self, request: &Request) -> Result<Done, Code> {
        let template = request.data;
        if template.len() != S::T {
            return Err(Code::Unsupported);
        }
        let enrollment = self.enrollment(request, 1, false)?;
        if self.is_held(enrollment.flag, template) {
            return Err(Code::ExistFinger);
        }
        enroll(&mut self.memory, enrollment, &[template]);
        Ok(Done::Param(u32::from(enrollment.id)))
    }

    /// The tests that every enrolment begins with.
    fn enrollment(
        &self,
        request: &Request,
        needed: usize,
        by_administrator: bool,
    ) -> Result<Enrollment, Code> {
        let flag = EnrollFlag::from_byte(request.flag).ok_or(Code::Unsupported)?;
        let id = match flag {
            EnrollFlag::AutoId => lowest_free_id(&self.memory),
            _ => id_in(request.param)?,
        };
        if by_administrator && !self.admins.any_may(Right::Enroll) {
            return Err(Code::Unsupported);
        }
        match flag {
            EnrollFlag::CheckId if count_of(&self.memory, id) != 0 => Err(Code::ExistId),
            EnrollFlag::AddNew | EnrollFlag::CheckFinger
                if count_of(&self.memory, id) + needed > MOST_TEMPLATES =>
            {
                Err(Code::FingerLimit)
            }
            _ if self.free_places() < needed => Err(Code::MemFull),
            _ => Ok(Enrollment { id, flag }),
        }
    }

    fn verify(&mut self, request: &Request) -> Result<Done, Code> {
        let id = self.held_id(request.param)?;
        self.wait_for(Awaited::PersonToVerify(id), Command::Verify, request.form);
        Ok(Done::Waits)
    }

    fn identify(&mut self, request: &Request) -> Result<Done, Code> {
        let range = range_in(request.param)?;
        self.wait_for(
            Awaited::PersonToIdentify(range),
            Command::Identify,
            request.form,
        );
        Ok(Done::Waits)
    }

    fn read_template(&self, request: &Request) -> Result<Done, Code> {
        let id = id_in(request.param)?;
        let places = self.memory.ids().enumerate();
        let mut own = places.filter(|&(_, held)| held == id);
        let (place, _) = own.nth(request.size as usize).ok_or(Code::NotFound)?;
        Ok(Done::Template(place))
    }

    fn delete(&mut self, request: &Request) -> Result<Done, Code> {
        let id = id_in(request.param)?;
        if remove_all_of(&mut self.memory, id) == 0 {
            return Err(Code::NotFound);
        }
        self.admins.strike(id);
        Ok(Done::Plain)
    }

    fn delete_all(&mut self) -> Result<Done, Code> {
        self.memory.clear();
        self.admins.clear();
        Ok(Done::Plain)
    }

    fn list(&self, request: &Request) -> Result<Done, Code> {
        let count = self.memory.count();
        if request.size == 0 {
            return Ok(Done::Ids(0..count));
        }
        // The product may pass 32 bits.
        let from = u64::from(request.param) * u64::from(request.size);
        if from >= count as u64 {
            return Err(Code::InvalidId);
        }
        let from = from as usize;
        Ok(Done::Ids(from..count.min(from + request.size as usize)))
    }

    fn write_level(&mut self, request: &Request) -> Result<Done, Code> {
        let level = level_in(request.flag)?;
        let id = self.held_id(request.param)?;
        let Some(level) = level else {
            self.admins.strike(id);
            return Ok(Done::Plain);
        };
        if !self.admins.write(id, level) {
            return Err(Code::MemFull);
        }
        Ok(Done::Plain)
    }

    fn delete_by_administrator(&mut self, request: &Request) -> Result<Done, Code> {
        let range = range_in(request.param)?;
        if !self.admins.any_may(Right::Delete) {
            return Err(Code::Unsupported);
        }
        let awaited = Awaited::GrantToDelete(range);
        self.wait_for(awaited, Command::DeleteByAdministrator, request.form);
        Ok(Done::Waits)
    }

    fn unlock(&mut self, request: &Request) -> Result<Done, Code> {
        if password_in(request.data)? != &self.password {
            return Err(Code::NotMatch);
        }
        self.locked = false;
        Ok(Done::Plain)
    }

    fn lock(&mut self) -> Result<Done, Code> {
        self.locked = true;
        Ok(Done::Plain)
    }

    fn change_password(&mut self, request: &Request) -> Result<Done, Code> {
        if request.data.len() != 2 * SUMMED_LENGTH {
            return Err(Code::Unsupported);
        }
        let (old, new) = request.data.split_at(SUMMED_LENGTH);
        let (old, new) = (password_in(old)?, password_in(new)?);
        if old != &self.password {
            return Err(Code::NotMatch);
        }
        self.password = *new;
        Ok(Done::Plain)
    }
}
