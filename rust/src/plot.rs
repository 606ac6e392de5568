//! A plot that owns its tables.

use crate::answers::{Group, Refusal, Stations, Step};
use crate::lent;
use crate::view::{SavedStation, Station, View};
use std::string::String;
use std::vec;
use std::vec::Vec;

/// A plot of n stations, with its tables.
///
/// ```
/// use plot_election::{Plot, Refusal, Rule};
///
/// let mut plot = Plot::new(2)?;
/// plot.up(1, 2)?;
/// plot.up(2, 1)?;
/// assert_eq!(plot.receive(1, 2)?.rule, Rule::AdoptLpIfPriority(1));
/// while let Some((from, to)) = plot.first_waiting() {
///     plot.receive(from, to)?;
/// }
/// assert!(plot.quiet()?);
/// assert_eq!(plot.group_of(2)?.collector, Some(1));
///
/// let image = plot.save()?;
/// plot.down(1, 2)?;
/// assert_eq!(plot.leader(2), Some(1));
/// plot.restore(&image)?;
/// assert_eq!(Plot::from_image(&image)?, plot);
/// # Ok::<(), Refusal>(())
/// ```
#[derive(Clone, Debug, PartialEq, Eq)]
pub struct Plot {
    n: u32,
    nodes: Vec<u32>,
    channels: Vec<u32>,
}

impl Plot {
    fn zeros(n: u32) -> Plot {
        Plot {
            n,
            nodes: vec![0; lent::nodes_len(n)],
            channels: vec![0; lent::channels_len(n)],
        }
    }

    /// The fresh plot of n stations.
    ///
    /// # Errors
    ///
    /// [`Refusal::Sizes`] for n outside 1 to 16.
    pub fn new(n: u32) -> Result<Plot, Refusal> {
        let mut plot = Plot::zeros(n);
        lent::fresh(n, &mut plot.nodes, &mut plot.channels)?;
        Ok(plot)
    }

    /// The plot of an image, with as many stations as its header says.
    ///
    /// # Errors
    ///
    /// Those of [`lent::restore`], but never [`Refusal::Sizes`].
    pub fn from_image(image: &[u8]) -> Result<Plot, Refusal> {
        let mut plot = Plot::zeros(lent::image_stations(image)?);
        plot.restore(image)?;
        Ok(plot)
    }

    /// The plot of a sketch, with as many stations as it has. See [`lent::read_sketch`].
    ///
    /// ```
    /// use plot_election::{Plot, Refusal};
    ///
    /// let plot = Plot::from_sketch(b"graph plot {\n  1;\n  2;\n  3;\n  1 -- 3;\n}\n")?;
    /// assert!(plot.view().is_linked(3, 1) && plot.waiting(1, 3) == 1);
    /// assert_eq!(plot.draw()?, "digraph plot {\n  1;\n  2;\n  3;\n  3 -> 1;\n}\n");
    /// # Ok::<(), Refusal>(())
    /// ```
    ///
    /// # Errors
    ///
    /// [`Refusal::SketchForm`], then [`Refusal::SketchLink`].
    pub fn from_sketch(text: &[u8]) -> Result<Plot, Refusal> {
        let n = lent::sketch_stations(text).ok_or(Refusal::SketchForm)?;
        let mut plot = Plot::zeros(n);
        plot.read_sketch(text)?;
        Ok(plot)
    }

    /// The number of stations.
    pub fn size(&self) -> u32 {
        self.n
    }

    /// Channel u to v goes up, at u.
    ///
    /// # Errors
    ///
    /// Those of [`lent::up`], from [`Refusal::Station`] on.
    pub fn up(&mut self, u: u32, v: u32) -> Result<Step, Refusal> {
        lent::up(self.n, u, v, &mut self.nodes, &mut self.channels)
    }

    /// Channel u to v goes down, at u; its messages are lost.
    ///
    /// # Errors
    ///
    /// Those of [`lent::down`], from [`Refusal::Station`] on.
    pub fn down(&mut self, u: u32, v: u32) -> Result<Step, Refusal> {
        lent::down(self.n, u, v, &mut self.nodes, &mut self.channels)
    }

    /// The first message of channel `from` to `to` is received, at `to`.
    ///
    /// # Errors
    ///
    /// Those of [`lent::receive`], from [`Refusal::Station`] on.
    pub fn receive(&mut self, from: u32, to: u32) -> Result<Step, Refusal> {
        lent::receive(self.n, from, to, &mut self.nodes, &mut self.channels)
    }

    /// The image of the plot.
    ///
    /// # Errors
    ///
    /// None: the tables of a `Plot` pass the check, and the room is made for them. A newer library may know one.
    pub fn save(&self) -> Result<Vec<u8>, Refusal> {
        let mut out = vec![0; lent::image_len(self.n)];
        let size = lent::save(self.n, &self.nodes, &self.channels, &mut out)?;
        out.truncate(size);
        Ok(out)
    }

    /// Resumes the plot of an image of n stations; for any other see [`Plot::from_image`].
    ///
    /// # Errors
    ///
    /// Those of [`lent::restore`]; [`Refusal::Sizes`] for an image of another number of stations.
    pub fn restore(&mut self, image: &[u8]) -> Result<(), Refusal> {
        lent::restore(image, &mut self.nodes, &mut self.channels)
    }

    /// The drawing of the plot, a text in the DOT language of Graphviz. See [`lent::draw`].
    ///
    /// # Errors
    ///
    /// None: the tables of a `Plot` pass the check, and the room is made for them. A newer library may know one.
    pub fn draw(&self) -> Result<String, Refusal> {
        let mut out = vec![0; lent::drawing_len(self.n)];
        let size = lent::draw(self.n, &self.nodes, &self.channels, &mut out)?;
        Ok(out[..size].iter().copied().map(char::from).collect())
    }

    /// The plot becomes that of a sketch of n stations; for any other see [`Plot::from_sketch`].
    ///
    /// # Errors
    ///
    /// Those of [`lent::read_sketch`]; [`Refusal::Sizes`] for a sketch of another number of stations.
    pub fn read_sketch(&mut self, text: &[u8]) -> Result<(), Refusal> {
        lent::read_sketch(text, &mut self.nodes, &mut self.channels)
    }

    /// Looks at station k of an image of n stations, whose record is said to start at the bit `place`. The plot stays as it is.
    ///
    /// # Errors
    ///
    /// Those of [`lent::read_station`]; [`Refusal::Sizes`] for an image of another number of stations.
    pub fn read_station(&self, image: &[u8], k: u32, place: u64) -> Result<SavedStation, Refusal> {
        SavedStation::read(self.n, image, k, place)
    }

    /// The tables, to be read.
    pub fn view(&self) -> View<'_> {
        View {
            n: self.n,
            nodes: &self.nodes,
            channels: &self.channels,
        }
    }

    /// Station k as it stands; `None` for k outside 1 to n.
    pub fn station(&self, k: u32) -> Option<Station<'_>> {
        self.view().station(k)
    }

    /// The leader of station k's own height: k itself if k is a collector. `None` for k outside 1 to n.
    pub fn leader(&self, k: u32) -> Option<u32> {
        self.view().leader(k)
    }

    /// How many messages wait on channel u to v.
    pub fn waiting(&self, u: u32, v: u32) -> u32 {
        self.view().waiting(u, v)
    }

    /// The first channel on which a message waits, from and to.
    pub fn first_waiting(&self) -> Option<(u32, u32)> {
        self.view().first_waiting()
    }

    /// Whether no message waits and each two stations are up both ways or neither. Then every group has exactly one collector.
    ///
    /// # Errors
    ///
    /// None of this library's: the tables of a `Plot` pass the check.
    pub fn quiet(&self) -> Result<bool, Refusal> {
        self.view().quiet()
    }

    /// The lowest stations of all linked groups, one for each group.
    ///
    /// # Errors
    ///
    /// None of this library's: the tables of a `Plot` pass the check.
    pub fn groups(&self) -> Result<Stations, Refusal> {
        self.view().groups()
    }

    /// The linked group of station u.
    ///
    /// # Errors
    ///
    /// [`Refusal::Station`] for u outside 1 to n.
    pub fn group_of(&self, u: u32) -> Result<Group, Refusal> {
        self.view().group_of(u)
    }
}
