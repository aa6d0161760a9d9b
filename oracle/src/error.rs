// SPDX-FileCopyrightText: 2023 IBM Corporation
// SPDX-FileContributor: Wojciech Ozga <woz@zurich.ibm.com>, IBM Research - Zurich
// SPDX-License-Identifier: Apache-2.0
// Changed for Oudrameng: cut to the errors that the hart tables give, without texts and SBI codes. Every change stands in oracle/README.md.

#[derive(Debug, PartialEq)]
pub enum Error {
    /* SBI invalid parameters */
    InvalidConfidentialVmId(),
    InvalidHartId(),
    HartAlreadyRunning(),
    HartNotExecutable(),
    OverlappingMmioRegion(),

    /* SBI HSM extension-related errors */
    CannotStartNotStoppedHart(),
    CannotStopNotStartedHart(),
    CannotSuspedNotStartedHart(),
    CannotStartNotSuspendedHart(),

    /* Internal errors exposed to the outside as a failure */
    ReachedMaxNumberOfRemoteCommands(),
    ReachedMaxNumberOfMmioRegions(),
}
