//! The reference's codec amplifier, reached on a device that plays nowhere.
use reference::audio::null::NullHost;
use reference::hda::Hda;
use reference::{GuestMemory, MsiMessage, MsiSink};
use std::sync::Arc;
use vm_memory::GuestAddress;

struct NoMsi;

impl MsiSink for NoMsi {
    fn signal(&self, _: MsiMessage) {}
}

pub struct Codec(Hda);

impl Codec {
    /// A codec whose output amplifier has the gain bytes `left` and `right`.
    pub fn new(left: u8, right: u8) -> Self {
        let memory = GuestMemory::from_ranges(&[(GuestAddress(0), 4096)]).unwrap();
        let mut hda = Hda::new("hda", memory, Arc::new(NullHost), Arc::new(NoMsi), None, false);
        let output_amplifier = 2 * 24 + 2;
        hda.probe_codec()[output_amplifier..][..2].copy_from_slice(&[left, right]);
        Codec(hda)
    }

    pub fn amplify(&self, pcm: &mut [u8]) {
        self.0.probe_amplify(false, pcm);
    }
}
