pub mod probe {
    pub fn circle_row_range(cy: i32, r: i32, h: u32) -> (i32, i32) {
        super::circle_row_range(cy, r, h)
    }
}
