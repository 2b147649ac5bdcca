//! The refusal numbers in plain words: the one table that the tool's sentences, the audit's page, the man page and the C
//! header's enum are made from.

pub struct Number {
    pub number: usize,
    /// Its name in the C header, behind MALXUQEED_.
    pub name: &'static str,
    pub means: &'static str,
    /// Likely causes and what to do.
    pub remedy: &'static str,
    /// What the place beside the number counts, where it counts something.
    pub place: Option<&'static str>,
    /// What is said in its place of an STL file.
    pub stl: Option<Words>,
    /// And of a volume in f32.
    pub floats: Option<Words>,
    /// And of a search for pieces.
    pub pieces: Option<Words>,
}

/// What a refusal speaks of.
#[derive(Clone, Copy, PartialEq, Eq)]
pub enum Of {
    /// A sheet file or a volume.
    Sheet,
    Stl,
    Floats,
    Pieces,
}

/// A number's meaning and remedy.
#[derive(Clone, Copy)]
pub struct Words {
    pub means: &'static str,
    pub remedy: &'static str,
}

impl Number {
    /// The same row, with other words for an STL file.
    const fn of_stl(mut self, means: &'static str, remedy: &'static str) -> Number {
        self.stl = Some(Words { means, remedy });
        self
    }

    /// The same row, with other words for a volume in f32.
    const fn of_floats(mut self, means: &'static str, remedy: &'static str) -> Number {
        self.floats = Some(Words { means, remedy });
        self
    }

    /// The same row, with other words for a search for pieces.
    const fn of_pieces(mut self, means: &'static str, remedy: &'static str) -> Number {
        self.pieces = Some(Words { means, remedy });
        self
    }

    /// The words for what is spoken of.
    pub fn words(&self, of: Of) -> Words {
        let own = match of {
            Of::Sheet => None,
            Of::Stl => self.stl,
            Of::Floats => self.floats,
            Of::Pieces => self.pieces,
        };
        own.unwrap_or(Words { means: self.means, remedy: self.remedy })
    }
}

const fn row(number: usize, name: &'static str, means: &'static str, remedy: &'static str) -> Number {
    Number { number, name, means, remedy, place: None, stl: None, floats: None, pieces: None }
}

const fn placed(
    number: usize,
    name: &'static str,
    place: &'static str,
    means: &'static str,
    remedy: &'static str,
) -> Number {
    Number { number, name, means, remedy, place: Some(place), stl: None, floats: None, pieces: None }
}

/// 25, of a sheet that is written and of a file that is read.
const NO_COORDINATE: &str =
    "a triangle has a coordinate outside 0 to 4,128,768, or a facet a float that no such coordinate gives";

pub const NUMBERS: [Number; 22] = [
    row(
        1,
        "AXIS",
        "an axis has fewer than 2 or more than 64 samples",
        "Look at the sizes at the front of the volume (or at the end of the sheet): a header of another program, the other \
         byte order or a larger scan gives such sizes. A larger scan is cut into volumes of up to 64 samples an axis first.",
    )
    .of_floats(
        "an axis has fewer than 2 or more than 64 samples",
        "Look at the sizes at the front of the file, or give --sizes for one without a header. A larger scan is cut into volumes \
         of up to 64 samples an axis first.",
    ),
    row(
        2,
        "SAMPLES",
        "the volume does not hold exactly as many samples as its sizes ask for",
        "Copy the volume again if it was cut short; if it has a header or a tail of another program, make it anew with \
         'malxuqeed from-raw'.",
    )
    .of_floats(
        "there are not as many samples as voxels, or voxels as the sizes ask for",
        "A file has four bytes a voxel behind its sizes: copy it again if it was cut short, give --sizes for one without a \
         header. A caller of the library lends as many samples as there are voxels.",
    ),
    row(
        3,
        "WORK",
        "a lent work slice is too short",
        "Lend cube words and a waiting list as long as there are cubes, and seven edge slots a sample.",
    ),
    row(
        4,
        "START",
        "the named start is not a cube of the lattice",
        "A lattice has one cube fewer than samples on each axis, counted from 0: name a cube within it, or take the start \
         from the sheet with --start auto.",
    ),
    row(
        5,
        "NOT_CROSSED",
        "the surface does not pass through the named start cube, or that cube holds the fill; or no cube is named, and none is \
         crossed, or only cubes at the bounds are",
        "'malxuqeed pieces' lists a start of every surface of a volume, and --start lowest takes the first of them, at the bounds or \
         not; a cube with a corner of -32768, the scanner's fill, is no start. If it lists none, the level or the sign of the \
         samples is wrong: air is above 0, solid is 0 and below; or fill covers all that the surface passes through.",
    )
    .of_pieces(
        "there is no piece: the surface passes through no cube free of the fill",
        "The level or the sign of the samples is wrong: air is above 0, solid is 0 and below; or fill covers all that the surface \
         passes through. 'malxuqeed info' tells what the volume holds.",
    ),
    row(6, "VERTEX_ROOM", "the sheet has more vertices than there is room for", "Lend room for as many vertices as the answer counts."),
    row(7, "TRIANGLE_ROOM", "the sheet has more triangles than there is room for", "Lend room for as many triangles as the answer counts.")
        .of_stl("the STL file has more facets than there is room for", "Lend nine numbers a facet, a facet for each 50 bytes."),
    row(8, "BYTES", "the lent bytes are too few for the file", "Lend 16 bytes a vertex, 12 a triangle and 24 more.")
        .of_stl("the lent bytes are too few for the file", "Lend 50 bytes a triangle and 84 more."),
    row(
        9,
        "COUNT",
        "a count is larger than what was given, or than a sheet file may hold",
        "Give counts within the slices, at most 2,000,000 vertices and 4,000,000 triangles.",
    )
    .of_stl(
        "a count is larger than what was given, or than a sheet may have",
        "Give counts within the slices, at most 2,000,000 vertices and 4,000,000 triangles.",
    ),
    row(
        11,
        "SHORT",
        "the sheet file is shorter than its 24-byte trailer",
        "The file was cut short, or is no sheet file: fetch it again from the archive, or build it anew.",
    ),
    row(
        12,
        "MARK",
        "the file does not end in the mark of a sheet file",
        "It was cut short, something was added behind it, or it is no sheet file: fetch it again from the archive, or build it \
         anew.",
    ),
    row(
        14,
        "LAYOUT",
        "the counts, distances and length of the sheet file do not fit together",
        "The file was cut short, joined with another or damaged: fetch it again from the archive, or build it anew.",
    )
    .of_stl(
        "the length of the STL file is not what its facet count asks for",
        "It was cut short, something was added behind it, or it is no binary STL (one that is text begins with the word solid): \
         export it again as binary STL.",
    ),
    placed(
        15,
        "INDEX",
        "triangle",
        "a triangle of the sheet file names a vertex that is not there",
        "The file is damaged, or its writer dropped vertices without renumbering triangles: do not use figures taken from it; \
         build the sheet anew.",
    ),
    row(
        16,
        "SIZES",
        "the sheet file is of a lattice with other sizes than the volume",
        "The sheet belongs to another volume: look for the right one, or build the sheet anew from this one.",
    ),
    placed(
        17,
        "VERTEX",
        "vertex record",
        "a vertex of the sheet file is not on this surface, is at the wrong position, or comes twice",
        "Likely causes: the sheet is of another surface (try --start auto), of another scan or of another grey level; its \
         writer rounds positions differently, or takes the scanner's fill for solid; or the file is damaged. If the volume and \
         the start are right, do not use figures taken from it; build the sheet anew.",
    ),
    placed(
        18,
        "TRIANGLE",
        "triangle",
        "a triangle of the sheet file is not on this surface, faces the wrong way, or comes twice",
        "Likely causes: the vertices were sorted or joined without renumbering the triangles; the axes are mirrored; a piece \
         was written twice; or the file is damaged. Do not use figures taken from it, though it may look closed; build the \
         sheet anew.",
    ),
    row(
        19,
        "ABSENT",
        "a vertex or a triangle of this surface is missing from the sheet file",
        "Likely causes: the sheet was thinned, repaired or cut, or its writer stopped early. Do not use figures taken \
         from it; build the sheet anew.",
    ),
    row(
        20,
        "PIECES",
        "there are more pieces than the list has room for",
        "Lend a list as long as the answer counts; one that is as long as there are cubes is never too short.",
    ),
    placed(
        21,
        "GREY",
        "voxel",
        "a grey or a voxel is not a number, or lies beyond 65,536 on either side of 0",
        "Look at the greys that were given; of a voxel, at the byte order, the type and a header of another program. Voxels \
         that stand for nothing are given a grey of their own first.",
    ),
    row(
        22,
        "ORDER",
        "the grey of air is not below that of material",
        "Look whether --air and --material are exchanged. Where material is darker than air, change the sign of all voxels first.",
    ),
    placed(
        25,
        "COORDINATE",
        "triangle",
        NO_COORDINATE,
        "No vertex of a lattice lies there, so the sheet was moved or scaled, or it is damaged: check it against its volume, or \
         build it anew.",
    )
    .of_stl(
        NO_COORDINATE,
        "Only what 'malxuqeed stl' can write is read back. Another program wrote the file, or moved, scaled, smoothed or \
         repaired what is in it: take the file as it was exported.",
    ),
    row(
        26,
        "SCALE",
        "the scale is not a power of two from 1 to 256",
        "Give 1, 2, 4, 8, 16, 32, 64, 128 or 256: how many steps of a sample a step of grey is to have.",
    ),
];

pub fn number(number: usize) -> Option<&'static Number> {
    NUMBERS.iter().find(|row| row.number == number)
}

pub fn meaning(of: usize) -> &'static str {
    number(of).map_or("a number that no document names", |row| row.means)
}

#[cfg(test)]
mod tests {
    use super::*;

    #[test]
    fn every_number_of_the_documents_has_words() {
        let numbers: Vec<usize> = NUMBERS.iter().map(|row| row.number).collect();
        let named = (1..=22).filter(|number| ![10, 13].contains(number)).chain([25, 26]);
        assert_eq!(numbers, named.collect::<Vec<_>>());
        for row in &NUMBERS {
            for words in [Of::Sheet, Of::Stl, Of::Floats, Of::Pieces].map(|of| row.words(of)) {
                assert!(!words.means.ends_with('.') && words.remedy.ends_with('.'), "{}", row.number);
            }
        }
        let placed: Vec<usize> = NUMBERS.iter().filter(|row| row.place.is_some()).map(|row| row.number).collect();
        assert_eq!(placed, [15, 17, 18, 21, 25]);
    }
}
