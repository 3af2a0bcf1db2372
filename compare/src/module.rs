use crate::administrators::Administrators;
use crate::codes::{Code, Command, EnrollFlag, Refusal};
use crate::line::{Answer, Line, Outcome};
use crate::matcher::Matcher;
use crate::memory::Memory;
use crate::packet::{Form, Request, PASSWORD_LENGTH};
use crate::search::{IdRange, Search};
use crate::settings::Settings;

/// The shortest answer buffer.
const LEAST_ANSWER_BUFFER: usize = 2048;

/// The bytes of the longest template, and of the shortest work buffer.
pub(crate) const LONGEST_TEMPLATE: usize = 384;

/// For whom an enrolment is, and how it treats what is held.
#[derive(Clone, Copy)]
pub(crate) struct Enrollment {
    pub id: u16,
    pub flag: EnrollFlag,
}

/// What a request waits for.
#[derive(Clone, Copy)]
pub(crate) enum Awaited {
    /// ESA: an administrator.
    GrantToEnroll(Enrollment),
    /// DSA: an administrator.
    GrantToDelete(IdRange),
    /// ES, ESA: the first finger.
    FirstFinger(Enrollment),
    /// ES, ESA: the second finger; the quality of the first.
    SecondFinger(Enrollment, u8),
    /// VS: a finger of this ID.
    PersonToVerify(u16),
    /// IS: a finger of an ID in the range.
    PersonToIdentify(IdRange),
    /// DSA: a finger of an ID in the range.
    PersonToDelete(IdRange),
}

/// A request that waits.
#[derive(Clone, Copy)]
pub(crate) struct Waiting {
    pub awaited: Awaited,
    pub command: Command,
    pub form: Form,
    /// How many seconds it still waits; 0 means without end.
    pub left: u8,
}

impl Waiting {
    /// An outcome of the request.
    pub fn say(&self, line: &mut Line, param: u32, size: u32, code: Code) {
        let command = self.command as u8;
        line.say(
            self.form,
            Outcome {
                command,
                param,
                size,
                code,
            },
        );
    }

    /// An outcome with nothing in Param and Size.
    pub fn tell(&self, line: &mut Line, code: Code) {
        self.say(line, 0, 0, code);
    }
}

/// A fingerprint module.
pub struct Module<M, S> {
    pub(crate) matcher: M,
    pub(crate) memory: S,
    /// The module number.
    pub(crate) own: u16,
    pub(crate) locked: bool,
    pub(crate) password: [u8; PASSWORD_LENGTH],
    pub(crate) settings: Settings,
    pub(crate) admins: Administrators,
    pub(crate) waiting: Option<Waiting>,
    /// The scan of a first finger, while the second is awaited.
    pub(crate) first: [u8; LONGEST_TEMPLATE],
}

impl<M: Matcher, S: Memory> Module<M, S> {
    /// A fresh module over a matcher and a memory, which is emptied.
    pub fn new(matcher: M, mut memory: S, own: u16) -> Module<M, S> {
        memory.clear();
        Module {
            matcher,
            memory,
            own,
            locked: false,
            password: [0; PASSWORD_LENGTH],
            settings: Settings::new(),
            admins: Administrators::new(),
            waiting: None,
            first: [0; LONGEST_TEMPLATE],
        }
    }

    /// A frame has come from the host.
    pub fn packet(
        &mut self,
        frame: &[u8],
        out: &mut [u8],
        work: &mut [u8],
    ) -> Result<Answer, Refusal> {
        self.call(out, work, |module, line| {
            let request = Request::read(frame, module.settings.network, module.own)?;
            module.hear(&request, line);
            Ok(())
        })
    }

    /// The sensor has scanned a finger.
    pub fn finger(
        &mut self,
        scan: &[u8],
        quality: u8,
        out: &mut [u8],
        work: &mut [u8],
    ) -> Result<Answer, Refusal> {
        self.call(out, work, |module, line| {
            module.take_scan(scan, quality, line);
            Ok(())
        })
    }

    /// A second has passed.
    pub fn second(&mut self, out: &mut [u8], work: &mut [u8]) -> Result<Answer, Refusal> {
        self.call(out, work, |module, line| {
            module.tick(line);
            Ok(())
        })
    }

    /// A call. Whatever comes of it, the work buffer is cleared, unless a buffer was too short.
    fn call(
        &mut self,
        out: &mut [u8],
        work: &mut [u8],
        act: impl FnOnce(&mut Self, &mut Line) -> Result<(), Refusal>,
    ) -> Result<Answer, Refusal> {
        if out.len() < LEAST_ANSWER_BUFFER {
            return Err(Refusal::AnswerBuffer);
        }
        if work.len() < LONGEST_TEMPLATE {
            return Err(Refusal::WorkBuffer);
        }
        let mut line = Line::new(out, self.own);
        let done = act(self, &mut line);
        work.fill(0);
        done.map(|()| line.answer)
    }

    /// A request of a packet in this form waits, for as long as the parameter Timeout says.
    pub(crate) fn wait_for(&mut self, awaited: Awaited, command: Command, form: Form) {
        let left = self.settings.timeout;
        self.waiting = Some(Waiting {
            awaited,
            command,
            form,
            left,
        });
    }

    /// A search for a scan, at the security level in force.
    pub(crate) fn search<'a>(&'a self, scan: &'a [u8]) -> Search<'a, M> {
        Search {
            matcher: &self.matcher,
            scan,
            strictness: self.settings.security.strictness(),
        }
    }
}
