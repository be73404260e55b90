//! Structures by their fields: the load configuration and the CLR header. Each has as many of them as its size allows.

use petool_sys as sys;

/// A field of the load configuration, in the order of "PE Format".
#[derive(Clone, Copy, Debug, PartialEq, Eq, Hash)]
pub enum LoadField {
    /// Size.
    Size,
    /// TimeDateStamp.
    TimeDateStamp,
    /// MajorVersion.
    MajorVersion,
    /// MinorVersion.
    MinorVersion,
    /// GlobalFlagsClear.
    GlobalFlagsClear,
    /// GlobalFlagsSet.
    GlobalFlagsSet,
    /// CriticalSectionDefaultTimeout.
    CriticalSectionDefaultTimeout,
    /// DeCommitFreeBlockThreshold.
    DecommitFreeBlockThreshold,
    /// DeCommitTotalFreeThreshold.
    DecommitTotalFreeThreshold,
    /// LockPrefixTable.
    LockPrefixTable,
    /// MaximumAllocationSize.
    MaximumAllocationSize,
    /// VirtualMemoryThreshold.
    VirtualMemoryThreshold,
    /// ProcessAffinityMask.
    ProcessAffinityMask,
    /// ProcessHeapFlags.
    ProcessHeapFlags,
    /// CSDVersion.
    CsdVersion,
    /// DependentLoadFlags.
    DependentLoadFlags,
    /// EditList.
    EditList,
    /// SecurityCookie.
    SecurityCookie,
    /// SEHandlerTable.
    SeHandlerTable,
    /// SEHandlerCount.
    SeHandlerCount,
    /// GuardCFCheckFunctionPointer.
    GuardCfCheckFunctionPointer,
    /// GuardCFDispatchFunctionPointer.
    GuardCfDispatchFunctionPointer,
    /// GuardCFFunctionTable.
    GuardCfFunctionTable,
    /// GuardCFFunctionCount.
    GuardCfFunctionCount,
    /// GuardFlags.
    GuardFlags,
    /// CodeIntegrity.Flags.
    CodeIntegrityFlags,
    /// CodeIntegrity.Catalog.
    CodeIntegrityCatalog,
    /// CodeIntegrity.CatalogOffset.
    CodeIntegrityCatalogOffset,
    /// CodeIntegrity.Reserved.
    CodeIntegrityReserved,
    /// GuardAddressTakenIatEntryTable.
    GuardAddressTakenIatEntryTable,
    /// GuardAddressTakenIatEntryCount.
    GuardAddressTakenIatEntryCount,
    /// GuardLongJumpTargetTable.
    GuardLongJumpTargetTable,
    /// GuardLongJumpTargetCount.
    GuardLongJumpTargetCount,
    /// DynamicValueRelocTable.
    DynamicValueRelocTable,
    /// CHPEMetadataPointer.
    ChpeMetadataPointer,
    /// GuardRFFailureRoutine.
    GuardRfFailureRoutine,
    /// GuardRFFailureRoutineFunctionPointer.
    GuardRfFailureRoutineFunctionPointer,
    /// DynamicValueRelocTableOffset.
    DynamicValueRelocTableOffset,
    /// DynamicValueRelocTableSection.
    DynamicValueRelocTableSection,
    /// Reserved2.
    Reserved2,
    /// GuardRFVerifyStackPointerFunctionPointer.
    GuardRfVerifyStackPointerFunctionPointer,
    /// HotPatchTableOffset.
    HotPatchTableOffset,
    /// Reserved3.
    Reserved3,
    /// EnclaveConfigurationPointer.
    EnclaveConfigurationPointer,
    /// VolatileMetadataPointer.
    VolatileMetadataPointer,
    /// GuardEHContinuationTable.
    GuardEhContinuationTable,
    /// GuardEHContinuationCount.
    GuardEhContinuationCount,
    /// GuardXFGCheckFunctionPointer.
    GuardXfgCheckFunctionPointer,
    /// GuardXFGDispatchFunctionPointer.
    GuardXfgDispatchFunctionPointer,
    /// GuardXFGTableDispatchFunctionPointer.
    GuardXfgTableDispatchFunctionPointer,
    /// CastGuardOsDeterminedFailureMode.
    CastGuardOsDeterminedFailureMode,
    /// GuardMemcpyFunctionPointer.
    GuardMemcpyFunctionPointer,
}

/// The load configuration of an image.
#[derive(Clone, Debug, PartialEq, Eq, Hash)]
pub struct LoadConfiguration(pub(crate) Vec<sys::Field>);

impl LoadConfiguration {
    /// The number in a field; `None` if the load configuration does not have it.
    pub fn get(&self, field: LoadField) -> Option<u64> {
        number(&self.0, field as usize)
    }
}

/// A field of the CLR header, in order (ECMA-335, II.25.3.3).
#[derive(Clone, Copy, Debug, PartialEq, Eq, Hash)]
pub enum ClrField {
    /// cb: the size of the header.
    Cb,
    /// The major version of the runtime.
    MajorRuntimeVersion,
    /// The minor version of the runtime.
    MinorRuntimeVersion,
    /// The RVA of the metadata.
    MetaDataRva,
    /// The size of the metadata.
    MetaDataSize,
    /// Flags.
    Flags,
    /// EntryPointToken.
    EntryPointToken,
    /// The RVA of the resources.
    ResourcesRva,
    /// The size of the resources.
    ResourcesSize,
    /// The RVA of the strong name.
    StrongNameSignatureRva,
    /// The size of the strong name.
    StrongNameSignatureSize,
    /// The RVA of the table of code managers.
    CodeManagerTableRva,
    /// The size of the table of code managers.
    CodeManagerTableSize,
    /// The RVA of the fixups of vtables.
    VtableFixupsRva,
    /// The size of the fixups of vtables.
    VtableFixupsSize,
    /// The RVA of the jumps of exports.
    ExportAddressTableJumpsRva,
    /// The size of the jumps of exports.
    ExportAddressTableJumpsSize,
    /// The RVA of the native header.
    ManagedNativeHeaderRva,
    /// The size of the native header.
    ManagedNativeHeaderSize,
}

/// The CLR header of an image.
#[derive(Clone, Debug, PartialEq, Eq, Hash)]
pub struct ClrHeader(pub(crate) Vec<sys::Field>);

impl ClrHeader {
    /// The number in a field; `None` if the header does not have it.
    pub fn get(&self, field: ClrField) -> Option<u64> {
        number(&self.0, field as usize)
    }
}

fn number(rows: &[sys::Field], index: usize) -> Option<u64> {
    rows.get(index).filter(|row| row.is_present).map(|row| row.value)
}
