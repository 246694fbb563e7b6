//! The spoken walk as the studio hands it over: samples, cookie and the writer's settings.

use crate::stream::Stream;
use crate::writer::Settings;
use std::path::Path;

pub struct Walk {
    pub master: Vec<i16>,
    pub cookie: Vec<u8>,
    /// what the test equipment takes of the cookie
    pub stream: Stream,
    /// the flat form, for our library
    pub flat: Vec<i16>,
    /// the same, for the test equipment
    pub settings: Settings,
}

impl Walk {
    pub fn load(folder: &Path) -> Result<Walk, String> {
        let file = |name: &str| {
            let path = folder.join(name);
            std::fs::read(&path).map_err(|e| format!("{}: {e}", path.display()))
        };
        let sound = file("walk.pcm")?;
        let cookie = file("cookie.bin")?;
        let flat = numbers(&String::from_utf8_lossy(&file("settings.txt")?))?;
        let stream = Stream::of(&cookie).ok_or("a cookie below 24 bytes")?;
        let settings = Settings::of(&flat, &stream).ok_or("settings of another stream")?;
        if stream.num_channels != 1 || sound.len() % 2 != 0 {
            return Err("the walk is not whole 16-bit samples of one channel".to_string());
        }
        let sample = |b: &[u8]| i16::from_le_bytes([b[0], b[1]]);
        Ok(Walk {
            master: sound.chunks(2).map(sample).collect(),
            cookie,
            stream,
            flat,
            settings,
        })
    }

    pub fn frame(&self) -> usize {
        self.stream.frame_length as usize
    }
}

/// Decimal numbers; '#' starts a comment.
fn numbers(text: &str) -> Result<Vec<i16>, String> {
    let code = text
        .lines()
        .map(|line| line.split('#').next().unwrap_or(""));
    code.flat_map(str::split_whitespace)
        .map(|word| word.parse().map_err(|e| format!("settings: {word}: {e}")))
        .collect()
}
