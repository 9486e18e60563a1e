//! Small stand-ins for what egui's text names and the sources or the scope leave out. Maps that egui walks are ordered here by
//! id, so that a run can be repeated; the order is a parameter, because egui's is open.
use crate::{LayerId, Memory};
use std::cmp::Ordering;
use std::collections::{BTreeMap, HashMap};
use std::num::NonZeroU64;
use std::sync::atomic::{AtomicBool, Ordering as Sync};

/// Whether maps are walked from the largest id down. Rising ids give a tie to the smallest, as document 01 has it.
pub static FALLING: AtomicBool = AtomicBool::new(false);

#[derive(Clone, Copy, Debug, Hash, Eq, PartialEq)]
pub struct Id(NonZeroU64);

impl Id {
    pub fn of(n: u64) -> Option<Self> {
        NonZeroU64::new(n).map(Self)
    }

    pub fn unique(_source: &str) -> Self {
        Self(NonZeroU64::MAX)
    }

    pub fn value(&self) -> u64 {
        self.0.get()
    }

    pub fn accesskit_id(&self) -> accesskit::NodeId {
        self.value().into()
    }

    pub fn short_debug_format(&self) -> String {
        format!("{self:?}")
    }
}

impl Ord for Id {
    fn cmp(&self, other: &Self) -> Ordering {
        let rising = self.0.cmp(&other.0);
        if FALLING.load(Sync::Relaxed) {
            rising.reverse()
        } else {
            rising
        }
    }
}

impl PartialOrd for Id {
    fn partial_cmp(&self, other: &Self) -> Option<Ordering> {
        Some(self.cmp(other))
    }
}

impl Ord for LayerId {
    fn cmp(&self, other: &Self) -> Ordering {
        (self.order, self.id).cmp(&(other.order, other.id))
    }
}

impl PartialOrd for LayerId {
    fn partial_cmp(&self, other: &Self) -> Option<Ordering> {
        Some(self.cmp(other))
    }
}

/// The map of the focus cache and of area states.
#[cfg(not(hashed))]
pub type IdMap<V> = BTreeMap<Id, V>;

/// The same as egui has it, a hash map in which an id is its own hash: for times, since its order is no one's.
#[cfg(hashed)]
pub type IdMap<V> = HashMap<Id, V, std::hash::BuildHasherDefault<IdHasher>>;

#[derive(Default)]
pub struct IdHasher(u64);

impl std::hash::Hasher for IdHasher {
    fn write(&mut self, _: &[u8]) {
        unreachable!("an id is one number")
    }

    fn write_u64(&mut self, n: u64) {
        self.0 = n;
    }

    fn finish(&self) -> u64 {
        self.0
    }
}

/// The registry's map: its text names the standard map's own entries. egui never walks it.
pub type HashedIdMap<V> = HashMap<Id, V, std::hash::BuildHasherDefault<IdHasher>>;

pub mod ahash {
    #[cfg(not(hashed))]
    pub type HashMap<K, V> = std::collections::BTreeMap<K, V>;
    /// For times: a hash map with a hash that costs no more than ahash's.
    #[cfg(hashed)]
    pub type HashMap<K, V> =
        std::collections::HashMap<K, V, std::hash::BuildHasherDefault<QuickHasher>>;

    #[derive(Default)]
    pub struct QuickHasher(u64);

    impl std::hash::Hasher for QuickHasher {
        fn write(&mut self, bytes: &[u8]) {
            bytes.iter().for_each(|&b| self.write_u64(b.into()));
        }

        fn write_u64(&mut self, n: u64) {
            self.0 = (self.0.rotate_left(23) ^ n).wrapping_mul(0x9e37_79b9_7f4a_7c15);
        }

        fn write_isize(&mut self, n: isize) {
            self.write_u64(n as u64);
        }

        fn finish(&self) -> u64 {
            self.0
        }
    }

    #[cfg(not(hashed))]
    pub type HashSet<K> = std::collections::BTreeSet<K>;
    #[cfg(hashed)]
    pub type HashSet<K> = std::collections::HashSet<K, std::hash::BuildHasherDefault<QuickHasher>>;
}

/// Of one viewport: as egui has them, with an id that is its own hash.
pub type ViewportIdMap<V> = HashMap<ViewportId, V, std::hash::BuildHasherDefault<IdHasher>>;
pub type ViewportIdSet =
    std::collections::HashSet<ViewportId, std::hash::BuildHasherDefault<IdHasher>>;

#[derive(Clone, Copy, Debug, Default, Hash, Eq, PartialEq)]
pub struct ViewportId(pub u64);

#[derive(Default)]
pub struct RawInput {
    pub viewport_id: ViewportId,
    pub events: Vec<crate::Event>,
}

pub mod accesskit {
    #[derive(Clone, Copy, Debug, PartialEq)]
    pub struct NodeId(pub u64);

    impl From<u64> for NodeId {
        fn from(n: u64) -> Self {
            Self(n)
        }
    }

    #[derive(Clone, Copy, Debug, PartialEq)]
    pub struct TreeId(pub u64);

    impl TreeId {
        pub const ROOT: Self = Self(0);
    }

    #[derive(Clone, Debug, PartialEq)]
    pub enum Action {
        Click,
        Focus,
    }

    #[derive(Clone, Debug, PartialEq)]
    pub struct ActionRequest {
        pub action: Action,
        pub target_node: NodeId,
        pub target_tree: TreeId,
        pub data: Option<()>,
    }
}

pub mod profiling {
    macro_rules! function_scope {
        () => {};
    }
    pub(crate) use function_scope;
}

/// The part of bitflags that `Sense` uses.
pub mod bitflags {
    macro_rules! bitflags {
        (impl $name:ident: $bits:ty { $($(#[$doc:meta])* const $flag:ident = $value:expr;)* }) => {
            impl $name {
                $(pub const $flag: Self = Self($value);)*
                pub fn empty() -> Self { Self(0) }
                pub fn bits(self) -> $bits { self.0 }
                pub fn from_bits_retain(bits: $bits) -> Self { Self(bits) }
                pub fn contains(self, other: Self) -> bool { self.0 & other.0 == other.0 }
                pub fn intersects(self, other: Self) -> bool { self.0 & other.0 != 0 }
            }
            impl core::ops::BitOr for $name {
                type Output = Self;
                fn bitor(self, other: Self) -> Self { Self(self.0 | other.0) }
            }
            impl core::ops::BitOrAssign for $name {
                fn bitor_assign(&mut self, other: Self) { self.0 |= other.0; }
            }
        };
    }
    pub(crate) use bitflags;
}

pub const MINUS_CHAR_STR: &str = "-";

pub struct Context(pub Memory);

impl Context {
    pub fn memory<R>(&self, read: impl FnOnce(&Memory) -> R) -> R {
        read(&self.0)
    }
}

#[derive(Clone, Debug, Default)]
pub struct Options;

impl Options {
    pub fn begin_pass(&mut self, _input: &RawInput) {}
}

pub mod cache {
    #[derive(Clone, Debug, Default)]
    pub struct CacheStorage;

    impl CacheStorage {
        pub fn update(&mut self) {}
    }
}

macro_rules! empty_types {
    ($($name:ident),*) => { $(#[derive(Clone, Debug, Default, PartialEq)] pub struct $name;)* };
}

pub mod util {
    empty_types!(IdTypeMap);
}

pub mod epaint {
    pub mod text {
        empty_types!(FontDefinitions, FontInsert);
    }
}

// Of events that the focus does not read.
empty_types!(
    ColorImage,
    ImeEvent,
    MouseWheelSource,
    MouseWheelUnit,
    PointerButton,
    TouchDeviceId,
    TouchId,
    TouchPhase,
    WidgetInfo
);
