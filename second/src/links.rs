//! Chapter "Links": who declares what, and who names whom.
//!
//! The three kinds of identifier are types of their own, so that one is never
//! accepted where another is meant.

use crate::layout::{CHANNEL_LIMIT, SOUNDER_LIMIT};
use std::collections::HashMap;

/// Echosounder document identifier.
#[derive(Clone, Copy, PartialEq, Eq, Hash, Debug)]
pub struct DocumentId(pub u32);

/// Software channel identifier.
#[derive(Clone, Copy, PartialEq, Eq, Hash, Debug)]
pub struct SoftwareChannel(pub u16);

/// Transceiver (hardware) channel number; it links nothing.
#[derive(Clone, Copy, PartialEq, Eq, Debug)]
pub struct TransceiverNumber(pub u16);

impl SoftwareChannel {
    /// In an attitude, and only there, this stands for all channels.
    pub const ALL: SoftwareChannel = SoftwareChannel(65535);
}

/// Whose sounder or channel it is: 100 and 1000 are Biosonics's, 200 and 2000
/// Simrad's.
#[derive(Clone, Copy, PartialEq, Eq, Debug)]
pub enum Maker {
    Biosonics,
    Simrad,
}

/// What a sounder tuple declares.
pub(crate) struct SounderLink {
    pub id: DocumentId,
    pub maker: Maker,
    /// The channel count that the sounder states.
    pub stated: u16,
    pub place: u64,
}

/// What a channel tuple says to those who ask, so that nobody reads it again.
pub(crate) struct ChannelLink {
    pub id: SoftwareChannel,
    pub maker: Maker,
    /// The document identifier that it names.
    pub parent: DocumentId,
    pub sampling_rate: u32,
    pub type_of_data_sample: u16,
    pub place: u64,
}

/// What has been declared so far, in file order, of both makers together.
///
/// An identifier is declared once, so a map leads to the line that a search in
/// declaration order would stop at.
#[derive(Default)]
pub(crate) struct Links {
    sounders: Vec<SounderLink>,
    /// The channel tuples that have named each sounder.
    named: Vec<u16>,
    channels: Vec<ChannelLink>,
    sounder_lines: HashMap<DocumentId, usize>,
    channel_lines: HashMap<SoftwareChannel, usize>,
    /// The line behind that of the channel named last: pings mostly come channel
    /// by channel, and this one is looked at before the map.
    next_line: usize,
    /// The identifiers compared while linking.
    pub compared: u64,
}

impl Links {
    /// 12, then 14.
    pub fn declare_sounder(&mut self, sounder: SounderLink) -> Result<(), u32> {
        if self.sounder_lines.contains_key(&sounder.id) {
            return Err(12);
        }
        if self.sounders.len() == SOUNDER_LIMIT {
            return Err(14);
        }
        self.sounder_lines.insert(sounder.id, self.sounders.len());
        self.sounders.push(sounder);
        self.named.push(0);
        Ok(())
    }

    /// 12, then 14, then 13.
    pub fn declare_channel(&mut self, channel: ChannelLink) -> Result<(), u32> {
        if self.channel_lines.contains_key(&channel.id) {
            return Err(12);
        }
        if self.channels.len() == CHANNEL_LIMIT {
            return Err(14);
        }
        let parent = self.parent(&channel);
        let parent = self.link(parent)?;
        self.named[parent] += 1; // at most 1,024
        self.channel_lines.insert(channel.id, self.channels.len());
        self.channels.push(channel);
        Ok(())
    }

    /// The line of the sounder that a channel names. A sounder of the other maker
    /// is no parent: the search stops at it, for no other has its identifier.
    fn parent(&self, channel: &ChannelLink) -> Option<usize> {
        let line = *self.sounder_lines.get(&channel.parent)?;
        (self.sounders[line].maker == channel.maker).then_some(line)
    }

    /// The channel that a ping, a threshold or an attitude names: 13.
    pub fn name_channel(&mut self, id: SoftwareChannel) -> Result<(), u32> {
        let next = self.channels.get(self.next_line);
        let line = if next.is_some_and(|channel| channel.id == id) {
            Some(self.next_line)
        } else {
            self.channel_lines.get(&id).copied()
        };
        let behind = self.link(line)? + 1;
        self.next_line = if behind < self.channels.len() {
            behind
        } else {
            0
        };
        Ok(())
    }

    /// A search that goes in declaration order and stops at its match has
    /// compared the identifiers up to the match's line, that one included.
    /// Without a match it is 13, and a refusal tells no count.
    fn link(&mut self, line: Option<usize>) -> Result<usize, u32> {
        let line = line.ok_or(13u32)?;
        self.compared += line as u64 + 1;
        Ok(line)
    }

    /// The channel with an identifier, and its sounder. Asking isn't linking
    /// and counts no comparison.
    pub fn channel(&self, id: SoftwareChannel) -> Option<(&ChannelLink, &SounderLink)> {
        let channel = &self.channels[*self.channel_lines.get(&id)?];
        let sounder = &self.sounders[*self.sounder_lines.get(&channel.parent)?];
        Some((channel, sounder))
    }

    /// The place of the first sounder whose stated channel count is wrong.
    pub fn wrong_count(&self) -> Option<u64> {
        self.sounders
            .iter()
            .zip(&self.named)
            .find(|(sounder, named)| sounder.stated != **named)
            .map(|(sounder, _)| sounder.place)
    }
}
