//! A fence as a hypervisor asks for it.

/// The types of fence entries, with the names that the extension gives them.
#[derive(Clone, Copy, PartialEq, Eq, Debug)]
pub enum HfenceType {
    /// GVMA: a guest physical range, for all VMIDs.
    Gvma = 0,
    /// GVMA_ALL: all guest physical addresses, for all VMIDs.
    GvmaAll = 1,
    /// GVMA_VMID: a guest physical range, for one VMID.
    GvmaVmid = 2,
    /// GVMA_VMID_ALL: all guest physical addresses, for one VMID.
    GvmaVmidAll = 3,
    /// VVMA: a guest virtual range, for one VMID.
    Vvma = 4,
    /// VVMA_ALL: all guest virtual addresses, for one VMID.
    VvmaAll = 5,
    /// VVMA_ASID: a guest virtual range, for one VMID and ASID.
    VvmaAsid = 6,
    /// VVMA_ASID_ALL: all guest virtual addresses, for one VMID and ASID.
    VvmaAsidAll = 7,
}

impl HfenceType {
    /// All types, in the order of their numbers.
    pub const ALL: [HfenceType; 8] = [
        HfenceType::Gvma,
        HfenceType::GvmaAll,
        HfenceType::GvmaVmid,
        HfenceType::GvmaVmidAll,
        HfenceType::Vvma,
        HfenceType::VvmaAll,
        HfenceType::VvmaAsid,
        HfenceType::VvmaAsidAll,
    ];

    /// The type's number.
    pub const fn number(self) -> u64 {
        self as u64
    }
}

/// A fence: its type and the fields of its entry. Those that the type does not use are stored as
/// zero. The order, the VMID and the ASID must then be within their limits too; the page number and
/// the page count are not looked at.
#[derive(Clone, Copy, PartialEq, Eq, Debug)]
pub struct Hfence {
    /// What is invalidated, and for whom.
    pub kind: HfenceType,
    /// A page of the range has `1 << (order + 12)` bytes; at most 127.
    pub order: u64,
    /// The VMID: at most 16,383, at width 32 127.
    pub vmid: u64,
    /// The ASID: at most 65,535, at width 32 511.
    pub asid: u64,
    /// The first address of the range, shifted right by `order + 12`; at width 32 it fits 32 bits.
    pub page_number: u64,
    /// How many pages the range has; at width 32 it fits 32 bits.
    pub page_count: u64,
}

impl Hfence {
    /// The fence of a type with zero in every other field, to be changed or built upon.
    pub const fn new(kind: HfenceType) -> Hfence {
        Hfence { kind, order: 0, vmid: 0, asid: 0, page_number: 0, page_count: 0 }
    }

    /// The fields in the order of an entry: Type, Order, VMID, ASID, Page_Number, Page_Count.
    pub(crate) const fn fields(&self) -> [u64; 6] {
        let Hfence { kind, order, vmid, asid, page_number, page_count } = *self;
        [kind.number(), order, vmid, asid, page_number, page_count]
    }
}
