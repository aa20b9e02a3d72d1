//! The standard's instructions that differ by their opcode alone.

/// An enum of opcodes with their names in the standard's text, and a method of
/// [`Body`](super::Body) for each.
macro_rules! opcodes {
    ($(#[$doc:meta])* $enum:ident { $($variant:ident $method:ident $opcode:literal $text:literal,)* }) => {
        $(#[$doc])*
        #[derive(Clone, Copy, Debug, PartialEq, Eq, Hash)]
        #[repr(u8)]
        pub enum $enum {
            $(#[doc = concat!("`", $text, "`")] $variant = $opcode,)*
        }

        impl $enum {
            /// All of them, in the order of their opcodes.
            pub const ALL: &'static [$enum] = &[$($enum::$variant,)*];

            /// The one with this opcode.
            pub fn from_opcode(opcode: u8) -> Option<Self> {
                match opcode {
                    $($opcode => Some($enum::$variant),)*
                    _ => None,
                }
            }

            /// The standard's opcode.
            pub fn opcode(self) -> u8 {
                self as u8
            }

            /// The name in the standard's text format.
            pub fn text(self) -> &'static str {
                match self {
                    $($enum::$variant => $text,)*
                }
            }
        }
    };
}

/// The same table, for whoever needs the names of the methods.
macro_rules! ops {
    ($then:ident!) => {
        $then! {
            /// An instruction without operands.
            Op {
                Unreachable unreachable 0x00 "unreachable",
                Nop nop 0x01 "nop",
                Return return_ 0x0F "return",
                Drop drop 0x1A "drop",
                Select select 0x1B "select",
                I32Eqz i32_eqz 0x45 "i32.eqz",
                I32Eq i32_eq 0x46 "i32.eq",
                I32Ne i32_ne 0x47 "i32.ne",
                I32LtS i32_lt_s 0x48 "i32.lt_s",
                I32LtU i32_lt_u 0x49 "i32.lt_u",
                I32GtS i32_gt_s 0x4A "i32.gt_s",
                I32GtU i32_gt_u 0x4B "i32.gt_u",
                I32LeS i32_le_s 0x4C "i32.le_s",
                I32LeU i32_le_u 0x4D "i32.le_u",
                I32GeS i32_ge_s 0x4E "i32.ge_s",
                I32GeU i32_ge_u 0x4F "i32.ge_u",
                I64Eqz i64_eqz 0x50 "i64.eqz",
                I64Eq i64_eq 0x51 "i64.eq",
                I64Ne i64_ne 0x52 "i64.ne",
                I64LtS i64_lt_s 0x53 "i64.lt_s",
                I64LtU i64_lt_u 0x54 "i64.lt_u",
                I64GtS i64_gt_s 0x55 "i64.gt_s",
                I64GtU i64_gt_u 0x56 "i64.gt_u",
                I64LeS i64_le_s 0x57 "i64.le_s",
                I64LeU i64_le_u 0x58 "i64.le_u",
                I64GeS i64_ge_s 0x59 "i64.ge_s",
                I64GeU i64_ge_u 0x5A "i64.ge_u",
                F32Eq f32_eq 0x5B "f32.eq",
                F32Ne f32_ne 0x5C "f32.ne",
                F32Lt f32_lt 0x5D "f32.lt",
                F32Gt f32_gt 0x5E "f32.gt",
                F32Le f32_le 0x5F "f32.le",
                F32Ge f32_ge 0x60 "f32.ge",
                F64Eq f64_eq 0x61 "f64.eq",
                F64Ne f64_ne 0x62 "f64.ne",
                F64Lt f64_lt 0x63 "f64.lt",
                F64Gt f64_gt 0x64 "f64.gt",
                F64Le f64_le 0x65 "f64.le",
                F64Ge f64_ge 0x66 "f64.ge",
                I32Clz i32_clz 0x67 "i32.clz",
                I32Ctz i32_ctz 0x68 "i32.ctz",
                I32Popcnt i32_popcnt 0x69 "i32.popcnt",
                I32Add i32_add 0x6A "i32.add",
                I32Sub i32_sub 0x6B "i32.sub",
                I32Mul i32_mul 0x6C "i32.mul",
                I32DivS i32_div_s 0x6D "i32.div_s",
                I32DivU i32_div_u 0x6E "i32.div_u",
                I32RemS i32_rem_s 0x6F "i32.rem_s",
                I32RemU i32_rem_u 0x70 "i32.rem_u",
                I32And i32_and 0x71 "i32.and",
                I32Or i32_or 0x72 "i32.or",
                I32Xor i32_xor 0x73 "i32.xor",
                I32Shl i32_shl 0x74 "i32.shl",
                I32ShrS i32_shr_s 0x75 "i32.shr_s",
                I32ShrU i32_shr_u 0x76 "i32.shr_u",
                I32Rotl i32_rotl 0x77 "i32.rotl",
                I32Rotr i32_rotr 0x78 "i32.rotr",
                I64Clz i64_clz 0x79 "i64.clz",
                I64Ctz i64_ctz 0x7A "i64.ctz",
                I64Popcnt i64_popcnt 0x7B "i64.popcnt",
                I64Add i64_add 0x7C "i64.add",
                I64Sub i64_sub 0x7D "i64.sub",
                I64Mul i64_mul 0x7E "i64.mul",
                I64DivS i64_div_s 0x7F "i64.div_s",
                I64DivU i64_div_u 0x80 "i64.div_u",
                I64RemS i64_rem_s 0x81 "i64.rem_s",
                I64RemU i64_rem_u 0x82 "i64.rem_u",
                I64And i64_and 0x83 "i64.and",
                I64Or i64_or 0x84 "i64.or",
                I64Xor i64_xor 0x85 "i64.xor",
                I64Shl i64_shl 0x86 "i64.shl",
                I64ShrS i64_shr_s 0x87 "i64.shr_s",
                I64ShrU i64_shr_u 0x88 "i64.shr_u",
                I64Rotl i64_rotl 0x89 "i64.rotl",
                I64Rotr i64_rotr 0x8A "i64.rotr",
                F32Abs f32_abs 0x8B "f32.abs",
                F32Neg f32_neg 0x8C "f32.neg",
                F32Ceil f32_ceil 0x8D "f32.ceil",
                F32Floor f32_floor 0x8E "f32.floor",
                F32Trunc f32_trunc 0x8F "f32.trunc",
                F32Nearest f32_nearest 0x90 "f32.nearest",
                F32Sqrt f32_sqrt 0x91 "f32.sqrt",
                F32Add f32_add 0x92 "f32.add",
                F32Sub f32_sub 0x93 "f32.sub",
                F32Mul f32_mul 0x94 "f32.mul",
                F32Div f32_div 0x95 "f32.div",
                F32Min f32_min 0x96 "f32.min",
                F32Max f32_max 0x97 "f32.max",
                F32Copysign f32_copysign 0x98 "f32.copysign",
                F64Abs f64_abs 0x99 "f64.abs",
                F64Neg f64_neg 0x9A "f64.neg",
                F64Ceil f64_ceil 0x9B "f64.ceil",
                F64Floor f64_floor 0x9C "f64.floor",
                F64Trunc f64_trunc 0x9D "f64.trunc",
                F64Nearest f64_nearest 0x9E "f64.nearest",
                F64Sqrt f64_sqrt 0x9F "f64.sqrt",
                F64Add f64_add 0xA0 "f64.add",
                F64Sub f64_sub 0xA1 "f64.sub",
                F64Mul f64_mul 0xA2 "f64.mul",
                F64Div f64_div 0xA3 "f64.div",
                F64Min f64_min 0xA4 "f64.min",
                F64Max f64_max 0xA5 "f64.max",
                F64Copysign f64_copysign 0xA6 "f64.copysign",
                I32WrapI64 i32_wrap_i64 0xA7 "i32.wrap_i64",
                I32TruncF32S i32_trunc_f32_s 0xA8 "i32.trunc_f32_s",
                I32TruncF32U i32_trunc_f32_u 0xA9 "i32.trunc_f32_u",
                I32TruncF64S i32_trunc_f64_s 0xAA "i32.trunc_f64_s",
                I32TruncF64U i32_trunc_f64_u 0xAB "i32.trunc_f64_u",
                I64ExtendI32S i64_extend_i32_s 0xAC "i64.extend_i32_s",
                I64ExtendI32U i64_extend_i32_u 0xAD "i64.extend_i32_u",
                I64TruncF32S i64_trunc_f32_s 0xAE "i64.trunc_f32_s",
                I64TruncF32U i64_trunc_f32_u 0xAF "i64.trunc_f32_u",
                I64TruncF64S i64_trunc_f64_s 0xB0 "i64.trunc_f64_s",
                I64TruncF64U i64_trunc_f64_u 0xB1 "i64.trunc_f64_u",
                F32ConvertI32S f32_convert_i32_s 0xB2 "f32.convert_i32_s",
                F32ConvertI32U f32_convert_i32_u 0xB3 "f32.convert_i32_u",
                F32ConvertI64S f32_convert_i64_s 0xB4 "f32.convert_i64_s",
                F32ConvertI64U f32_convert_i64_u 0xB5 "f32.convert_i64_u",
                F32DemoteF64 f32_demote_f64 0xB6 "f32.demote_f64",
                F64ConvertI32S f64_convert_i32_s 0xB7 "f64.convert_i32_s",
                F64ConvertI32U f64_convert_i32_u 0xB8 "f64.convert_i32_u",
                F64ConvertI64S f64_convert_i64_s 0xB9 "f64.convert_i64_s",
                F64ConvertI64U f64_convert_i64_u 0xBA "f64.convert_i64_u",
                F64PromoteF32 f64_promote_f32 0xBB "f64.promote_f32",
                I32ReinterpretF32 i32_reinterpret_f32 0xBC "i32.reinterpret_f32",
                I64ReinterpretF64 i64_reinterpret_f64 0xBD "i64.reinterpret_f64",
                F32ReinterpretI32 f32_reinterpret_i32 0xBE "f32.reinterpret_i32",
                F64ReinterpretI64 f64_reinterpret_i64 0xBF "f64.reinterpret_i64",
                I32Extend8S i32_extend8_s 0xC0 "i32.extend8_s",
                I32Extend16S i32_extend16_s 0xC1 "i32.extend16_s",
                I64Extend8S i64_extend8_s 0xC2 "i64.extend8_s",
                I64Extend16S i64_extend16_s 0xC3 "i64.extend16_s",
                I64Extend32S i64_extend32_s 0xC4 "i64.extend32_s",
                RefIsNull ref_is_null 0xD1 "ref.is_null",
            }
        }
    };
}

/// The loads and stores.
macro_rules! accesses {
    ($then:ident!) => {
        $then! {
            /// A load or a store.
            Access {
                I32Load i32_load 0x28 "i32.load",
                I64Load i64_load 0x29 "i64.load",
                F32Load f32_load 0x2A "f32.load",
                F64Load f64_load 0x2B "f64.load",
                I32Load8S i32_load8_s 0x2C "i32.load8_s",
                I32Load8U i32_load8_u 0x2D "i32.load8_u",
                I32Load16S i32_load16_s 0x2E "i32.load16_s",
                I32Load16U i32_load16_u 0x2F "i32.load16_u",
                I64Load8S i64_load8_s 0x30 "i64.load8_s",
                I64Load8U i64_load8_u 0x31 "i64.load8_u",
                I64Load16S i64_load16_s 0x32 "i64.load16_s",
                I64Load16U i64_load16_u 0x33 "i64.load16_u",
                I64Load32S i64_load32_s 0x34 "i64.load32_s",
                I64Load32U i64_load32_u 0x35 "i64.load32_u",
                I32Store i32_store 0x36 "i32.store",
                I64Store i64_store 0x37 "i64.store",
                F32Store f32_store 0x38 "f32.store",
                F64Store f64_store 0x39 "f64.store",
                I32Store8 i32_store8 0x3A "i32.store8",
                I32Store16 i32_store16 0x3B "i32.store16",
                I64Store8 i64_store8 0x3C "i64.store8",
                I64Store16 i64_store16 0x3D "i64.store16",
                I64Store32 i64_store32 0x3E "i64.store32",
            }
        }
    };
}

pub(super) use {accesses, ops};

ops!(opcodes!);
accesses!(opcodes!);

impl Access {
    /// The exponent of the natural alignment: of the number of bytes that are
    /// loaded or stored.
    pub fn natural(self) -> u8 {
        const NATURAL: [u8; 23] = [
            2, 3, 2, 3, 0, 0, 1, 1, 0, 0, 1, 1, 2, 2, 2, 3, 2, 3, 0, 1, 0, 1, 2,
        ];
        NATURAL[usize::from(self.opcode() - Access::I32Load.opcode())]
    }
}
