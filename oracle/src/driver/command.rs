//! A remote command as six numbers, and as the Rust has it.
use crate::confidential_flow::handlers::shutdown::ShutdownRequest;
use crate::confidential_flow::handlers::symmetrical_multiprocessing::{
    HartMask, Ipi, RemoteFenceI, RemoteHfenceGvmaVmid, RemoteSfenceVma, RemoteSfenceVmaAsid,
};
use crate::core::control_data::ConfidentialHartRemoteCommand;

#[derive(Clone, Copy, PartialEq, Debug, Default)]
pub struct Command {
    pub kind: usize,
    pub mask: usize,
    pub base: usize,
    pub start: usize,
    pub size: usize,
    pub tag: usize,
}

impl Command {
    /// The Rust's command, or nothing where the kind is unknown or a number that the kind does not use is not 0.
    pub fn to_remote_command(self) -> Option<ConfidentialHartRemoteCommand> {
        let Self { kind, mask, base, start, size, tag } = self;
        let harts = HartMask { hart_mask: mask, hart_mask_base: base };
        let (start_address, asid, vmid) = (start, tag, tag);
        let command = match kind {
            1 => ConfidentialHartRemoteCommand::Ipi(Ipi { harts }),
            2 => ConfidentialHartRemoteCommand::RemoteFenceI(RemoteFenceI { harts }),
            3 => ConfidentialHartRemoteCommand::RemoteSfenceVma(RemoteSfenceVma { harts, start_address, size }),
            4 => ConfidentialHartRemoteCommand::RemoteSfenceVmaAsid(RemoteSfenceVmaAsid { harts, start_address, size, asid }),
            5 => ConfidentialHartRemoteCommand::RemoteHfenceGvmaVmid(RemoteHfenceGvmaVmid { harts, start_address, size, vmid }),
            6 => ConfidentialHartRemoteCommand::ShutdownRequest(ShutdownRequest {}),
            _ => return None,
        };
        // A number that the Rust's command has no place for comes back as 0.
        (Self::of_remote_command(&command) == self).then_some(command)
    }

    pub fn of_remote_command(command: &ConfidentialHartRemoteCommand) -> Self {
        let with =
            |kind, harts: &HartMask, start, size, tag| Self { kind, mask: harts.hart_mask, base: harts.hart_mask_base, start, size, tag };
        match command {
            ConfidentialHartRemoteCommand::Ipi(v) => with(1, &v.harts, 0, 0, 0),
            ConfidentialHartRemoteCommand::RemoteFenceI(v) => with(2, &v.harts, 0, 0, 0),
            ConfidentialHartRemoteCommand::RemoteSfenceVma(v) => with(3, &v.harts, v.start_address, v.size, 0),
            ConfidentialHartRemoteCommand::RemoteSfenceVmaAsid(v) => with(4, &v.harts, v.start_address, v.size, v.asid),
            ConfidentialHartRemoteCommand::RemoteHfenceGvmaVmid(v) => with(5, &v.harts, v.start_address, v.size, v.vmid),
            ConfidentialHartRemoteCommand::ShutdownRequest(_) => Self { kind: 6, ..Self::default() },
        }
    }

    pub fn numbers(&self) -> [usize; 6] {
        [self.kind, self.mask, self.base, self.start, self.size, self.tag]
    }

    pub fn of_numbers(numbers: &[usize; 6]) -> Self {
        let [kind, mask, base, start, size, tag] = *numbers;
        Self { kind, mask, base, start, size, tag }
    }
}
