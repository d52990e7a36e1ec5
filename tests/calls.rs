//! One call of a service, the slices that it is lent, and what it answers.
#![allow(dead_code)]

#[derive(Clone, Debug)]
pub enum Call {
    Build { text: Vec<u8>, chair: u16 },
    Check { table: Vec<u32> },
    Read { table: Vec<u32> },
    Extract { table: Vec<u32>, start: usize, length: usize },
    Count { table: Vec<u32>, form: u32, pattern: Vec<u8> },
    Locate { table: Vec<u32>, form: u32, pattern: Vec<u8> },
    Cuts { pattern: Vec<u8> },
    LyndonLength { table: Vec<u32>, position: usize },
    LyndonArray { table: Vec<u32> },
    ToSigned { table: Vec<u32> },
    ToSteps { text: Vec<u8> },
    FromSteps { text: Vec<u8> },
    BuildProfile { text: Vec<u8>, chair: u16 },
    CheckProfile { table: Vec<u32> },
    Census { table: Vec<u32>, q: usize },
}

/// The slices lent to a call. The result slice is the one in the service's unit, words or bytes; those of a census are both, bytes for its runs and words for
/// their counts. A slice that the service does not take is empty.
#[derive(Clone, Debug, Default, PartialEq)]
pub struct Slices {
    pub work: Vec<u32>,
    pub words: Vec<u32>,
    pub bytes: Vec<u8>,
}

/// What a service answers: a refusal's number and place, or number 0 with count, chair number and tests.
#[derive(Clone, Copy, Debug, PartialEq)]
pub struct Outcome {
    pub number: u32,
    pub place: u64,
    pub count: u64,
    pub chair: u32,
    pub tests: u64,
}

/// The services; a search by steps has a name of its own.
pub const SERVICES: [&str; 17] = [
    "build", "check", "read", "extract", "count", "locate", "cuts", "lyndon length", "lyndon array", "to signed", "to steps", "from steps", "count by steps",
    "locate by steps", "build profile", "check profile", "census",
];

/// The highest number of a refusal.
pub const REFUSALS: usize = 13;

/// The bit of a form that says that the table holds steps.
pub const STEPS: u32 = 1;

impl Call {
    /// The service's place in `SERVICES`.
    pub fn service(&self) -> usize {
        match self {
            Call::Count { .. } if self.by_steps() => 12,
            Call::Locate { .. } if self.by_steps() => 13,
            Call::Build { .. } => 0,
            Call::Check { .. } => 1,
            Call::Read { .. } => 2,
            Call::Extract { .. } => 3,
            Call::Count { .. } => 4,
            Call::Locate { .. } => 5,
            Call::Cuts { .. } => 6,
            Call::LyndonLength { .. } => 7,
            Call::LyndonArray { .. } => 8,
            Call::ToSigned { .. } => 9,
            Call::ToSteps { .. } => 10,
            Call::FromSteps { .. } => 11,
            Call::BuildProfile { .. } => 14,
            Call::CheckProfile { .. } => 15,
            Call::Census { .. } => 16,
        }
    }

    /// Whether the call is a search by steps.
    pub fn by_steps(&self) -> bool {
        matches!(self, Call::Count { form, .. } | Call::Locate { form, .. } if form & STEPS != 0)
    }
}

/// The first way in which what a call answered and left differs from what it should have.
pub fn difference(got: &(Outcome, Slices), want: &(Outcome, Slices)) -> Option<String> {
    if got.0 != want.0 {
        return Some(format!("answer {:?}, not {:?}", got.0, want.0));
    }
    let (a, b) = (&got.1, &want.1);
    let slices = [differs("work", &a.work, &b.work), differs("words", &a.words, &b.words), differs("bytes", &a.bytes, &b.bytes)];
    slices.into_iter().flatten().next()
}

fn differs<T: PartialEq + std::fmt::Debug>(name: &str, got: &[T], want: &[T]) -> Option<String> {
    if got == want {
        return None;
    }
    let i = got.iter().zip(want).take_while(|(g, w)| g == w).count();
    Some(format!("the {name} slice has {:?} at {i}, not {:?}", got.get(i), want.get(i)))
}
