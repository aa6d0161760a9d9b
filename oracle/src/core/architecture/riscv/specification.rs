// SPDX-FileCopyrightText: 2023 IBM Corporation
// SPDX-FileContributor: Wojciech Ozga <woz@zurich.ibm.com>, IBM Research - Zurich
// SPDX-License-Identifier: Apache-2.0
// Changed for Oudrameng: cut to the constants that the hart tables use. Every change stands in oracle/README.md.
pub const CSR_VSSTATUS: u16 = 0x200;
pub const CSR_VSATP: u16 = 0x280;
pub const CSR_MSTATUS: u16 = 0x300;
pub const CSR_MEPC: u16 = 0x341;
pub const CSR_MSTATUS_SIE: usize = 1;
pub const CSR_MSTATUS_SPIE: usize = 5;
pub const CSR_MSTATUS_MPIE: usize = 7;
pub const CSR_MSTATUS_MPP: usize = 11;
pub const CSR_MSTATUS_MPV: usize = 39;
pub const CSR_STATUS_SIE: usize = 1;
