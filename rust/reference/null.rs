//! Stand-in for the backend that audio/mod.rs names and the published sources lack: it opens nothing.
use super::{AudioFormat, CaptureSource, HostAudio, PlaybackSink};
use crate::DeviceError;

pub struct NullHost;

impl HostAudio for NullHost {
    fn name(&self) -> &'static str {
        "null"
    }
    fn open_playback(&self, _: AudioFormat) -> Result<Box<dyn PlaybackSink>, DeviceError> {
        Err(DeviceError::Other("null".into()))
    }
    fn open_capture(&self, _: AudioFormat) -> Result<Box<dyn CaptureSource>, DeviceError> {
        Err(DeviceError::Other("null".into()))
    }
}
