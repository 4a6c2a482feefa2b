//! A book in fields, and its bytes.

/// Time, offset, speed.
pub type Sample = [f64; 3];

#[derive(Clone, Copy, Default, Debug)]
pub struct Link {
    pub length: f64,
    pub next: u32,
    pub next_alt: u32,
    pub prev: u32,
    pub prev_alt: u32,
}

#[derive(Clone, Copy, Default, Debug)]
pub struct Origin {
    pub link: u32,
    pub offset: f64,
    pub front: u32,
}

#[derive(Clone, Default, Debug)]
pub struct Leg {
    pub link: u32,
    pub parent: u32,
    pub samples: Vec<Sample>,
}

#[derive(Clone, Default, Debug)]
pub struct Book {
    /// J of the book: gaps below it match.
    pub gap: f64,
    pub departure: f64,
    pub length: f64,
    pub links: Vec<Link>,
    pub origins: Vec<Origin>,
    pub destinations: Vec<u32>,
    pub legs: Vec<Leg>,
}

fn put(bytes: &mut Vec<u8>, number: usize) {
    bytes.extend((number as u32).to_le_bytes());
}

impl Book {
    pub fn bytes(&self) -> Vec<u8> {
        let samples: usize = self.legs.iter().map(|leg| leg.samples.len()).sum();
        let size = 64 + 24 * self.links.len() + 16 * self.origins.len();
        let mut bytes = Vec::with_capacity(size + 12 * self.legs.len() + 24 * samples);
        for float in [self.gap, self.departure, self.length] {
            bytes.extend(float.to_le_bytes());
        }
        put(&mut bytes, self.links.len());
        for link in &self.links {
            bytes.extend(link.length.to_le_bytes());
            for index in [link.next, link.next_alt, link.prev, link.prev_alt] {
                bytes.extend(index.to_le_bytes());
            }
        }
        put(&mut bytes, self.origins.len());
        for origin in &self.origins {
            bytes.extend(origin.link.to_le_bytes());
            bytes.extend(origin.offset.to_le_bytes());
            bytes.extend(origin.front.to_le_bytes());
        }
        put(&mut bytes, self.destinations.len());
        for link in &self.destinations {
            bytes.extend(link.to_le_bytes());
        }
        put(&mut bytes, self.legs.len());
        for leg in &self.legs {
            bytes.extend(leg.link.to_le_bytes());
            bytes.extend(leg.parent.to_le_bytes());
            put(&mut bytes, leg.samples.len());
        }
        put(&mut bytes, samples);
        for float in self.legs.iter().flat_map(|leg| leg.samples.iter().flatten()) {
            bytes.extend(float.to_le_bytes());
        }
        bytes
    }

    /// The book of these bytes, if they are one as far as counts go (whatever the values).
    pub fn parse(bytes: &[u8]) -> Option<Book> {
        let mut read = Reader { bytes };
        let mut book =
            Book { gap: read.float()?, departure: read.float()?, length: read.float()?, ..Book::default() };
        for _ in 0..read.number()? {
            book.links.push(Link {
                length: read.float()?,
                next: read.number()?,
                next_alt: read.number()?,
                prev: read.number()?,
                prev_alt: read.number()?,
            });
        }
        for _ in 0..read.number()? {
            let (link, offset, front) = (read.number()?, read.float()?, read.number()?);
            book.origins.push(Origin { link, offset, front });
        }
        for _ in 0..read.number()? {
            book.destinations.push(read.number()?);
        }
        let mut counts = Vec::new();
        for _ in 0..read.number()? {
            let (link, parent, count) = (read.number()?, read.number()?, read.number()?);
            book.legs.push(Leg { link, parent, samples: Vec::new() });
            counts.push(count);
        }
        let mut left = read.number()?;
        for (leg, count) in book.legs.iter_mut().zip(counts) {
            left = left.checked_sub(count)?;
            for _ in 0..count {
                leg.samples.push([read.float()?, read.float()?, read.float()?]);
            }
        }
        (left == 0 && read.bytes.is_empty()).then_some(book)
    }

    /// The links of the path that ends with leg `number` (from 1), each with the point where it
    /// starts, and the path's last point; each sum of lengths rounded once.
    pub fn path(&self, number: u32) -> (Vec<(u32, f64)>, f64) {
        let mut links = Vec::new();
        let mut at = number;
        while at != 0 {
            let leg = &self.legs[at as usize - 1];
            links.push(leg.link);
            at = leg.parent;
        }
        let mut end = 0.0;
        let mut path = Vec::with_capacity(links.len());
        for link in links.into_iter().rev() {
            path.push((link, end));
            end += self.links[link as usize].length;
        }
        (path, end)
    }
}

struct Reader<'a> {
    bytes: &'a [u8],
}

impl Reader<'_> {
    fn number(&mut self) -> Option<u32> {
        let (head, tail) = self.bytes.split_first_chunk()?;
        self.bytes = tail;
        Some(u32::from_le_bytes(*head))
    }

    fn float(&mut self) -> Option<f64> {
        let (head, tail) = self.bytes.split_first_chunk()?;
        self.bytes = tail;
        Some(f64::from_le_bytes(*head))
    }
}

/// The bytes of work space that row 3 asks for.
pub fn work_asked(book: &Book, places: usize) -> u64 {
    let rows = book.links.len() + book.origins.len() + book.destinations.len() + book.legs.len();
    36_864 + 64 * (rows + places.min(65_535)) as u64
}
