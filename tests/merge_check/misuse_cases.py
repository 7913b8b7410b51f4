"""The bodies of `misuse`, and the places of three crates that name their types."""

CRATES = ("lms_book", "lms_pool", "lms_cell_pool")

# For each type the words of the bodies, how it would be made and how it is given, and each place of
# the three crates that names it.
TYPES = {
    "Lease": {
        "crate": "lms_book",
        "it": "lease",
        "number": "start",
        "spend": "end",
        "Fault": "BookFault",
        "fields": "key: _, start: _, len: _",
        "made": """
            use lms_book::Lease;
            use lms_hss::HssKey;

            pub fn made(key: HssKey) -> Lease {
                Lease { key, start: 0, len: 1 }
            }""",
        "given": """
            use lms_book::{Book, BookFault, Lease, MemoryStore};

            pub fn given(book: &mut Book<MemoryStore>) -> Result<Lease, BookFault> {
                book.reserve(1)
            }""",
        "places": """
            lms_book: pub use crate::book::{Book, Lease};
            lms_book: pub struct Lease { key: HssKey, start: u64, len: u64, }
            lms_book: impl Model for Lease
            lms_book: impl Lease
            lms_book: impl Lease: pub fn key(&self) -> HssKey
            lms_book: impl Lease: pub fn start(&self) -> u64
            lms_book: impl Lease: pub fn len(&self) -> u64
            lms_book: impl Lease: pub fn end(self)
            lms_book: let Lease
            lms_book: pub fn reserve(&mut self, n: u64) -> Result<Lease, BookFault>
            lms_book: Ok(Lease
            lms_book: pub fn give_back(&self, lease: Lease)
            lms_book: use crate::book::Lease;
            lms_book: pub fn knows(&self, lease: &Lease) -> bool
            lms_pool: use lms_book::Lease;
            lms_cell_pool: use lms_book::Lease;
            lms_cell_pool: pub fn over<R: Wait>( rt: &R, alloc: Global, lease: Lease, seats: usize, ) -> Result<(Self, Vec<CellSeat>), (OutOfMemory, Lease)>
            lms_pool: pub fn over( alloc: Global, lease: Lease, seats: usize, ) -> Result<(Self, Vec<DrawSeat>), (OutOfMemory, Lease)>
            """,
    },
    "IndexPass": {
        "crate": "lms_pool",
        "it": "pass",
        "number": "index",
        "spend": "burn",
        "Fault": "Ended",
        "fields": "pool: _, place: _, index: _",
        "made": """
            use lms_pool::{IndexPass, IndexPool};
            use std::snapshot::Snapshot;

            pub fn made(pool: &IndexPool) -> IndexPass {
                IndexPass { pool: Snapshot::of(pool), place: 0, index: 0 }
            }""",
        "given": """
            ghost use Rattle.std.specs.Prelude.{◌≡◌};

            use lms_pool::{DrawSeat, Ended, IndexPass, IndexPool};

            pub fn given(pool: &IndexPool, seat: &mut DrawSeat) -> Result<IndexPass, Ended>
                requires { seat.old.pool ≡ pool.now }
            {
                pool.claim(seat)
            }""",
        "places": """
            lms_pool: pub use crate::pass::IndexPass;
            lms_pool: pub struct IndexPass { pub(crate) pool: Snapshot<IndexPool>, pub(crate) place: u64, pub(crate) index: u64, }
            lms_pool: impl Model for IndexPass
            lms_pool: impl IndexPass
            lms_pool: impl IndexPass: pub fn place(&self) -> u64
            lms_pool: impl IndexPass: pub fn index(&self) -> u64
            lms_pool: impl IndexPass: pub fn burn(self)
            lms_pool: let IndexPass
            lms_pool: use crate::pass::IndexPass;
            lms_pool: pub fn claim(&self, me: &mut DrawSeat) -> Result<IndexPass, Ended>
            lms_pool: Ok(IndexPass
            """,
    },
    "CellPass": {
        "crate": "lms_cell_pool",
        "it": "cell_pass",
        "number": "index",
        "spend": "burn",
        "Fault": "Ended",
        "fields": "pool: _, place: _, index: _",
        "made": """
            use lms_cell_pool::{CellPass, CellPool};
            use std::snapshot::Snapshot;

            pub fn made(pool: &CellPool) -> CellPass {
                CellPass { pool: Snapshot::of(pool), place: 0, index: 0 }
            }""",
        "given": """
            ghost use Rattle.std.specs.Prelude.{◌≡◌};

            use lms_cell_pool::{CellPass, CellPool, CellSeat, Ended};
            use std::sync::Wait;

            pub fn given<R: Wait>(rt: &R, pool: &CellPool, seat: &mut CellSeat) -> Result<CellPass, Ended>
                requires { seat.old.pool ≡ pool.now }
            {
                pool.claim(rt, seat)
            }""",
        "places": """
            lms_cell_pool: pub use crate::pass::CellPass;
            lms_cell_pool: pub struct CellPass { pub(crate) pool: Snapshot<CellPool>, pub(crate) place: u64, pub(crate) index: u64, }
            lms_cell_pool: impl Model for CellPass
            lms_cell_pool: impl CellPass
            lms_cell_pool: impl CellPass: pub fn place(&self) -> u64
            lms_cell_pool: impl CellPass: pub fn index(&self) -> u64
            lms_cell_pool: impl CellPass: pub fn burn(self)
            lms_cell_pool: let CellPass
            lms_cell_pool: use crate::pass::CellPass;
            lms_cell_pool: pub fn claim<R: Wait>(&self, rt: &R, me: &mut CellSeat) -> Result<CellPass, Ended>
            lms_cell_pool: Ok(CellPass
            """,
    },
}

# What is done, the error that refuses it, what that says, a body that does it and one that does
# not.
CASES = [
    (
        "dropped where its scope ends",
        "linear-value-let-go",
        "`$it` is let go where its block ends, and `$Type` is not `Drop`",
        """
            use $crate::$Type;

            pub fn number($it: $Type) -> u64 {
                $it.$number()
            }""",
        """
            use $crate::$Type;

            pub fn number($it: $Type) -> u64 {
                let number = $it.$number();
                $it.$spend();
                number
            }""",
    ),
    (
        "lost by `?`",
        "linear-value-let-go",
        "control leaves here and lets `$it` go, and `$Type` is not `Drop`",
        """
            use $crate::{$Fault, $Type};

            pub fn go_on($it: $Type, step: Result<u64, $Fault>) -> Result<u64, $Fault> {
                let done = step?;
                $it.$spend();
                Ok(done)
            }""",
        """
            use $crate::{$Fault, $Type};

            pub fn go_on($it: $Type, step: Result<u64, $Fault>) -> Result<u64, $Fault> {
                $it.$spend();
                let done = step?;
                Ok(done)
            }""",
    ),
    (
        "copied",
        "unsatisfied-bound",
        "the trait bound `$Type: Copy` is not satisfied",
        """
            use $crate::$Type;

            pub fn copied($it: $Type) -> ($Type, $Type) {
                let copy = copy_of(&$it);
                ($it, copy)
            }

            fn copy_of<T: Copy>(it: &T) -> T {
                *it
            }""",
        """
            use $crate::$Type;

            pub fn copied($it: $Type) -> ($Type, u64) {
                let copy = copy_of(&$it.$number());
                ($it, copy)
            }

            fn copy_of<T: Copy>(it: &T) -> T {
                *it
            }""",
    ),
    (
        "moved out of a reference",
        "move-out-of-place",
        "cannot move out of `*$it` which is behind a shared reference",
        """
            use $crate::$Type;

            pub fn moved($it: &$Type) -> $Type {
                *$it
            }""",
        """
            use $crate::$Type;

            pub fn moved($it: &$Type) -> u64 {
                $it.$number()
            }""",
    ),
    (
        "cloned",
        "unsupported-method",
        "`$Type` is not `Clone`",
        """
            use $crate::$Type;
            use std::alloc::AllocError;

            pub fn cloned($it: &$Type) -> Result<$Type, AllocError> {
                $it.clone()
            }""",
        """
            use $crate::$Type;

            pub fn cloned($it: &$Type) -> (&$Type, &$Type) {
                ($it, $it)
            }""",
    ),
    (
        "used twice",
        "borrow-e0382",
        "use of moved value: `$it`",
        """
            use $crate::$Type;

            pub fn twice($it: $Type) {
                $it.$spend();
                $it.$spend();
            }""",
        """
            use $crate::$Type;

            pub fn twice($it: $Type) -> (u64, u64) {
                let numbers = ($it.$number(), $it.$number());
                $it.$spend();
                numbers
            }""",
    ),
    (
        "put into a struct that is dropped",
        "linear-value-let-go",
        "`holder` is let go where its block ends, and `Holder<$Type>` is not `Drop`, since `$Type` is not",
        """
            use $crate::$Type;

            #[derive(Drop)]
            pub struct Holder<T> {
                held: T,
            }

            pub fn number($it: $Type) -> u64 {
                let holder = Holder { held: $it };
                holder.held.$number()
            }""",
        """
            use $crate::$Type;

            #[derive(Drop)]
            pub struct Holder<T> {
                held: T,
            }

            pub fn number($it: $Type) -> u64 {
                let holder = Holder { held: $it };
                let number = holder.held.$number();
                let Holder { held } = holder;
                held.$spend();
                number
            }""",
    ),
    (
        "put into a struct that may be dropped",
        "invalid-derive",
        "`Drop` cannot be derived over this field: `$Type` is not `Drop`",
        """
            use $crate::$Type;

            #[derive(Drop)]
            pub struct Holder {
                pub held: $Type,
            }""",
        """
            use $crate::$Type;

            pub struct Holder {
                pub held: $Type,
            }""",
    ),
    (
        "made by a literal",
        "private-field",
        "of struct `$Type` is private",
        "$made",
        "$given",
    ),
    (
        "taken apart by a pattern",
        "private-field",
        "of struct `$Type` is private",
        """
            use $crate::$Type;

            pub fn apart($it: $Type) {
                let $Type { $fields } = $it;
            }""",
        """
            use $crate::$Type;

            pub fn apart(pair: ($Type, u64)) -> u64 {
                let ($it, number) = pair;
                $it.$spend();
                number
            }""",
    ),
    (
        "given to `drop`",
        "unsatisfied-bound",
        "the trait bound `$Type: Drop` is not satisfied",
        """
            use $crate::$Type;

            pub fn dropped($it: $Type) {
                drop($it)
            }""",
        """
            use $crate::$Type;

            pub fn dropped($it: $Type) {
                $it.$spend()
            }""",
    ),
    (
        "given to `forget`",
        "unsatisfied-bound",
        "the trait bound `$Type: Drop` is not satisfied",
        """
            use $crate::$Type;
            use std::mem;

            pub fn forgotten($it: $Type) {
                mem::forget($it)
            }""",
        """
            use $crate::$Type;
            use std::mem;

            pub fn forgotten($it: $Type) {
                mem::forget($it.$number());
                $it.$spend()
            }""",
    ),
    (
        "written over",
        "linear-value-let-go",
        "this assignment lets the old value go, and `$Type` is not `Drop`",
        """
            use $crate::$Type;

            pub fn replaced(held: &mut $Type, $it: $Type) {
                *held = $it;
            }""",
        """
            use $crate::$Type;
            use std::mem;

            pub fn replaced(held: &mut $Type, $it: $Type) -> $Type {
                mem::replace(held, $it)
            }""",
    ),
]
