// What follows is not the kernel's: it is appended to the text of frame.rs to
// read what is private there, and changes nothing; `BareRegion` calls it.

// The share of a region that its table takes rests on this size.
const _: () = assert!(size_of::<Frame>() == 32);

/// The managed addresses of each kept region.
pub fn peek_managed() -> Vec<core::ops::Range<u64>> {
    let range = |fi: &FrameIndexer| fi.start.raw()..fi.start.raw() + fi.len as u64;
    FI.wait().iter().map(range).collect()
}

/// All regions as a dump has them.
pub fn peek_regions() -> Vec<crate::dump::Region> {
    PFA.wait().lock().regions.iter().map(AllocationRegion::peek).collect()
}

impl AllocationRegion {
    fn peek(&self) -> crate::dump::Region {
        let first = self.indexer.start.raw();
        let table_pages = self.nr_pages - self.indexer.len / FRAME_SIZE;
        let pages = 0..self.indexer.len / FRAME_SIZE;
        let [small, medium, large] = &self.levels;
        crate::dump::Region {
            start: first - (table_pages * FRAME_SIZE) as u64,
            pages: self.nr_pages as u64,
            first,
            managed: pages.map(|page| self.peek_page(page)).collect(),
            lists: [small, medium, large]
                .map(AllocationRegionLevel::peek)
                .concat()
                .try_into()
                .unwrap(),
        }
    }

    fn peek_page(&self, page: usize) -> crate::dump::Page {
        let address = self.indexer.start.offset(page * FRAME_SIZE).unwrap();
        let frame = self.get_frame(address).unwrap();
        assert!(frame.pa == address, "a record with another page's address");
        let marks = frame.peek_marks();
        assert!(
            frame.link.is_linked() == (marks & 3 == 1),
            "a frame is on a list exactly if it is admitted and not allocated"
        );
        crate::dump::Page { marks, level: frame.get_level() as u8 }
    }
}

impl AllocationRegionLevel {
    /// The dirty and the zeroed list, front to back.
    fn peek(&self) -> [Vec<u64>; 2] {
        let lists = [&self.non_zeroed, &self.zeroed]
            .map(|list| list.iter().map(|frame| frame.pa.raw()).collect::<Vec<_>>());
        assert!(self.free == lists[0].len() + lists[1].len(), "a level's count of free frames");
        lists
    }
}

impl Frame {
    /// The marks as the specification numbers them.
    fn peek_marks(&self) -> u8 {
        let flags = self.get_flags();
        assert!(!flags.contains(PhysicalFrameFlags::LOCKED), "a frame's lock was left held");
        [
            (PhysicalFrameFlags::ADMITTED, 1),
            (PhysicalFrameFlags::ALLOCATED, 2),
            (PhysicalFrameFlags::ZEROED, 4),
            (PhysicalFrameFlags::KERNEL, 8),
        ]
        .iter()
        .filter(|(flag, _)| flags.contains(*flag))
        .map(|(_, mark)| mark)
        .sum()
    }
}

/// See `bare`. Dropping the lists would walk them, so they are not dropped.
pub struct BareRegion(core::mem::ManuallyDrop<AllocationRegion>);

impl BareRegion {
    pub fn new(start: u64, pages: usize) -> Option<Self> {
        let region = AllocationRegion::new(&MemoryRegion {
            start: PhysAddr::new(start).ok()?,
            length: pages * FRAME_SIZE,
            kind: MemoryRegionKind::UsableRam,
        })?;
        Some(Self(core::mem::ManuallyDrop::new(region)))
    }

    /// The address of a frame of the level, which is no longer free.
    pub fn allocate(&mut self, level: usize) -> Option<u64> {
        let frame = self.0.allocate(false, false, PHYS_LEVEL_LAYOUTS[level])?;
        Some(frame.start_address().raw())
    }

    /// How many free frames of a level are listed.
    pub fn free(&self, level: usize) -> usize {
        self.0.levels[level].free
    }
}
