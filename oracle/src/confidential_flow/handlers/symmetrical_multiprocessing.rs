//! Filled up: the commands that name harts by a mask.
use crate::core::control_data::{ConfidentialHart, ConfidentialHartRemoteCommandExecutable};

/// The harts of an SBI hart mask: bit `i` of `hart_mask` is hart `hart_mask_base + i`, and the base -1 is every hart.
#[derive(Clone, PartialEq, Debug)]
pub struct HartMask {
    pub hart_mask: usize,
    pub hart_mask_base: usize,
}

impl HartMask {
    const ALL_HARTS: usize = usize::MAX;

    fn is_hart_selected(&self, confidential_hart_id: usize) -> bool {
        if self.hart_mask_base == Self::ALL_HARTS {
            return true;
        }
        match confidential_hart_id.checked_sub(self.hart_mask_base) {
            Some(bit) if bit < 64 => (self.hart_mask >> bit) & 1 == 1,
            _ => false,
        }
    }
}

/// A command with its harts and the numbers that its kind uses.
macro_rules! command {
    ($name:ident { $($number:ident),* }) => {
        #[derive(Clone, PartialEq, Debug)]
        pub struct $name {
            pub harts: HartMask,
            $(pub $number: usize,)*
        }

        impl ConfidentialHartRemoteCommandExecutable for $name {
            fn execute_on_confidential_hart(&self, _confidential_hart: &mut ConfidentialHart) {}

            fn is_hart_selected(&self, confidential_hart_id: usize) -> bool {
                self.harts.is_hart_selected(confidential_hart_id)
            }
        }
    };
}

command!(Ipi {});
command!(RemoteFenceI {});
command!(RemoteSfenceVma { start_address, size });
command!(RemoteSfenceVmaAsid { start_address, size, asid });
command!(RemoteHfenceGvmaVmid { start_address, size, vmid });
