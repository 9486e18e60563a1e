//! Stand-ins for emath, whose text is not among the sources: from document 01's words, IEEE 754, and how egui's text uses it.
use std::ops::{Div, Mul};

pub const GUI_ROUNDING: f32 = 1.0 / 32.0;

#[derive(Clone, Copy, Debug, Default, PartialEq)]
pub struct Pos2 {
    pub x: f32,
    pub y: f32,
}

impl Eq for Pos2 {}

pub fn pos2(x: f32, y: f32) -> Pos2 {
    Pos2 { x, y }
}

#[derive(Clone, Copy, Debug, Default, PartialEq)]
pub struct Vec2 {
    pub x: f32,
    pub y: f32,
}

impl Eq for Vec2 {}

pub fn vec2(x: f32, y: f32) -> Vec2 {
    Vec2 { x, y }
}

impl Vec2 {
    pub const UP: Self = Self { x: 0.0, y: -1.0 };
    pub const RIGHT: Self = Self { x: 1.0, y: 0.0 };
    pub const DOWN: Self = Self { x: 0.0, y: 1.0 };
    pub const LEFT: Self = Self { x: -1.0, y: 0.0 };

    pub fn length(self) -> f32 {
        self.x.hypot(self.y)
    }

    pub fn normalized(self) -> Self {
        let len = self.length();
        if len <= 0.0 { self } else { self / len }
    }

    pub fn dot(self, other: Self) -> f32 {
        self.x * other.x + self.y * other.y
    }
}

impl Div<f32> for Vec2 {
    type Output = Self;
    fn div(self, by: f32) -> Self {
        vec2(self.x / by, self.y / by)
    }
}

#[derive(Clone, Copy, Debug, PartialEq)]
pub struct Rangef {
    pub min: f32,
    pub max: f32,
}

impl Rangef {
    pub fn span(self) -> f32 {
        self.max - self.min
    }

    pub fn center(self) -> f32 {
        0.5 * (self.min + self.max)
    }

    pub fn intersection(self, other: Self) -> Self {
        Self {
            min: self.min.max(other.min),
            max: self.max.min(other.max),
        }
    }
}

#[derive(Clone, Copy, Debug, PartialEq, Eq)]
pub struct Rect {
    pub min: Pos2,
    pub max: Pos2,
}

impl Rect {
    pub const EVERYTHING: Self = Self {
        min: Pos2 {
            x: -f32::INFINITY,
            y: -f32::INFINITY,
        },
        max: Pos2 {
            x: f32::INFINITY,
            y: f32::INFINITY,
        },
    };

    pub fn from_min_size(min: Pos2, size: Vec2) -> Self {
        Self {
            min,
            max: pos2(min.x + size.x, min.y + size.y),
        }
    }

    pub fn x_range(&self) -> Rangef {
        Rangef {
            min: self.min.x,
            max: self.max.x,
        }
    }

    pub fn y_range(&self) -> Rangef {
        Rangef {
            min: self.min.y,
            max: self.max.y,
        }
    }

    pub fn contains(&self, p: Pos2) -> bool {
        self.min.x <= p.x && p.x <= self.max.x && self.min.y <= p.y && p.y <= self.max.y
    }
}

/// Rounding to the 1/32 of a point, ties away from zero.
pub trait GuiRounding {
    fn round_ui(self) -> Self;
}

impl GuiRounding for f32 {
    fn round_ui(self) -> Self {
        (self / GUI_ROUNDING).round() * GUI_ROUNDING
    }
}

impl GuiRounding for Pos2 {
    fn round_ui(self) -> Self {
        pos2(self.x.round_ui(), self.y.round_ui())
    }
}

impl GuiRounding for Rect {
    fn round_ui(self) -> Self {
        Self {
            min: self.min.round_ui(),
            max: self.max.round_ui(),
        }
    }
}

#[derive(Clone, Copy, Debug, PartialEq)]
pub enum Align {
    Min,
    Center,
    Max,
}

impl Align {
    pub fn to_factor(self) -> f32 {
        match self {
            Self::Min => 0.0,
            Self::Center => 0.5,
            Self::Max => 1.0,
        }
    }
}

#[derive(Clone, Copy, Debug, PartialEq)]
pub struct Align2(pub [Align; 2]);

impl Align2 {
    pub const LEFT_TOP: Self = Self([Align::Min, Align::Min]);

    pub fn x(self) -> Align {
        self.0[0]
    }

    pub fn y(self) -> Align {
        self.0[1]
    }
}

/// Scales, then shifts. Nothing that is compared holds one yet.
#[derive(Clone, Copy, Debug, PartialEq)]
pub struct TSTransform {
    pub scaling: f32,
    pub translation: Vec2,
}

impl Mul<Pos2> for TSTransform {
    type Output = Pos2;
    fn mul(self, p: Pos2) -> Pos2 {
        pos2(
            self.scaling * p.x + self.translation.x,
            self.scaling * p.y + self.translation.y,
        )
    }
}

impl Mul<Rect> for TSTransform {
    type Output = Rect;
    fn mul(self, r: Rect) -> Rect {
        Rect {
            min: self * r.min,
            max: self * r.max,
        }
    }
}
