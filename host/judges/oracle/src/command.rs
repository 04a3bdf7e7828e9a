// Stand-in for kira's command readers: a slot for at most one command.

/// One kind of command, read at most once.
#[derive(Debug)]
pub struct CommandReader<T>(Option<T>);

impl<T> CommandReader<T> {
    pub fn read(&mut self) -> Option<T> {
        self.0.take()
    }

    /// What kira's writer does from its own thread.
    pub fn write(&mut self, command: Option<T>) {
        self.0 = command;
    }
}

impl<T> Default for CommandReader<T> {
    fn default() -> Self {
        Self(None)
    }
}

/// Of kira's three parameters only the rate is stored here; volume and panning are lanes.
macro_rules! read_commands_into_parameters {
    ($sound:ident, volume, playback_rate, panning) => {
        if let Some((value, tween)) = $sound.command_readers.set_playback_rate.read() {
            $sound.playback_rate.set(value, tween);
        }
    };
}

pub(crate) use read_commands_into_parameters;
