use oracle::Vector;
use oracle::frame::Anchor;

#[repr(C)]
#[derive(Clone, Copy)]
struct Vec3 {
    x: f32,
    y: f32,
    z: f32,
}

impl From<Vector> for Vec3 {
    fn from([x, y, z]: Vector) -> Self {
        Vec3 { x, y, z }
    }
}

impl From<Vec3> for Vector {
    fn from(v: Vec3) -> Self {
        [v.x, v.y, v.z]
    }
}

#[repr(C)]
struct PlacedVec3 {
    target: Vec3,
    position: Vec3,
    last: Vec3,
}

unsafe extern "C" {
    safe fn probe_vec_add(lhs: Vec3, rhs: Vec3) -> Vec3;
    safe fn probe_vec_sub(lhs: Vec3, rhs: Vec3) -> Vec3;
    safe fn probe_vec_mul_scalar(vector: Vec3, scalar: f32) -> Vec3;
    safe fn probe_vec_mul_components(lhs: Vec3, rhs: Vec3) -> Vec3;
    safe fn probe_vec_length(vector: Vec3) -> f32;
    safe fn probe_map_to_cube(vector: Vec3) -> Vec3;
    safe fn probe_lerp_vec3(from: Vec3, to: Vec3, t: f32) -> Vec3;
    safe fn probe_room_anchored_position(position: Vec3, present: bool, distance: f32) -> Vec3;
    safe fn probe_screen_anchored_position(position: Vec3, screen: f32, depth: u8) -> Vec3;
    safe fn probe_update_source_position(
        valid: bool,
        differential: bool,
        anchor: u8,
        position: Vec3,
        last: Vec3,
        present: bool,
        distance: f32,
        screen: f32,
        depth: u8,
        here: Vec3,
    ) -> PlacedVec3;
}

/// The powers that a depth factor names, by code.
pub use oracle::frame::DEPTHS;

pub fn vec_add(lhs: Vector, rhs: Vector) -> Vector {
    probe_vec_add(lhs.into(), rhs.into()).into()
}

pub fn vec_sub(lhs: Vector, rhs: Vector) -> Vector {
    probe_vec_sub(lhs.into(), rhs.into()).into()
}

pub fn vec_mul_scalar(vector: Vector, scalar: f32) -> Vector {
    probe_vec_mul_scalar(vector.into(), scalar).into()
}

pub fn vec_mul_components(lhs: Vector, rhs: Vector) -> Vector {
    probe_vec_mul_components(lhs.into(), rhs.into()).into()
}

pub fn vec_length(vector: Vector) -> f32 {
    probe_vec_length(vector.into())
}

pub fn map_to_cube(vector: Vector) -> Vector {
    probe_map_to_cube(vector.into()).into()
}

pub fn lerp_vec3(from: Vector, to: Vector, t: f32) -> Vector {
    probe_lerp_vec3(from.into(), to.into(), t).into()
}

pub fn room_anchored_position(position: Vector, distance: Option<f32>) -> Vector {
    probe_room_anchored_position(
        position.into(),
        distance.is_some(),
        distance.unwrap_or_default(),
    )
    .into()
}

/// `depth` is a code.
pub fn screen_anchored_position(position: Vector, screen: f32, depth: u8) -> Vector {
    probe_screen_anchored_position(position.into(), screen, depth).into()
}

/// What a block holds of an object's position; `depth` is a code.
#[derive(Clone, Copy, Debug)]
pub struct BlockPosition {
    pub valid: bool,
    pub differential: bool,
    pub anchor: Anchor,
    pub position: Vector,
    pub last: Vector,
    pub distance: Option<f32>,
    pub screen: f32,
    pub depth: u8,
}

#[derive(Clone, Copy, Debug)]
pub struct Placed {
    pub target: Vector,
    pub position: Vector,
    pub last: Vector,
}

pub fn update_source_position(block: &BlockPosition, here: Vector) -> Placed {
    let placed = probe_update_source_position(
        block.valid,
        block.differential,
        block.anchor as u8,
        block.position.into(),
        block.last.into(),
        block.distance.is_some(),
        block.distance.unwrap_or_default(),
        block.screen,
        block.depth,
        here.into(),
    );
    Placed {
        target: placed.target.into(),
        position: placed.position.into(),
        last: placed.last.into(),
    }
}
