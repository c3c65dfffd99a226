//! Building job blocks, sizes blocks and plan blocks.
//! Nothing is checked: a block may be one that the planner refuses.

/// A kind: length, width, price, demand.
pub type Kind = (u16, u16, u32, u16);

/// A job block with this kerf.
pub fn kerf_block(length: u16, width: u16, kerf: u16, kinds: &[Kind]) -> Vec<u8> {
    block(&[length, width, kinds.len() as u16, kerf], kinds)
}

/// A job block with kerf 0.
pub fn job_block(length: u16, width: u16, kinds: &[Kind]) -> Vec<u8> {
    kerf_block(length, width, 0, kinds)
}

/// The old block, which has no field for the kerf.
pub fn old_block(length: u16, width: u16, kinds: &[Kind]) -> Vec<u8> {
    block(&[length, width, kinds.len() as u16], kinds)
}

fn block(header: &[u16], kinds: &[Kind]) -> Vec<u8> {
    let mut block = Vec::with_capacity(2 * header.len() + 10 * kinds.len());
    for field in header {
        block.extend(field.to_le_bytes());
    }
    for (length, width, _, _) in kinds {
        block.extend(length.to_le_bytes());
        block.extend(width.to_le_bytes());
    }
    for (_, _, price, demand) in kinds {
        block.extend(price.to_le_bytes());
        block.extend(demand.to_le_bytes());
    }
    block
}

/// A sizes block: the plate's sides and the kerf, then the sides of each kind.
pub fn sizes_block(length: u32, width: u32, kerf: u32, kinds: &[[u32; 2]]) -> Vec<u8> {
    let sizes = [length, width, kerf].into_iter().chain(kinds.iter().copied().flatten());
    sizes.flat_map(u32::to_le_bytes).collect()
}

/// A plan block: the number of nodes, their kinds, their operands.
pub fn plan_block(kinds: &[u8], operands: &[u16]) -> Vec<u8> {
    let mut block = Vec::from((kinds.len() as u16).to_le_bytes());
    block.extend(kinds);
    block.extend(operands.iter().flat_map(|operand| operand.to_le_bytes()));
    block
}

/// Job S of the scope: plate 5 by 3, three kinds.
pub fn job_s() -> Vec<u8> {
    job_block(5, 3, &[(2, 3, 7, 1), (3, 1, 4, 2), (2, 2, 5, 1)])
}
