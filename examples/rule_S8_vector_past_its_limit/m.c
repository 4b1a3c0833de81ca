void mix(svBitVecVal *words) { words[0] = 0; }
