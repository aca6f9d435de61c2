// The SHA-256 of plan.wasm. Written by share/web/engine/make.
export const DIGEST = "1f5b3c2d0a30837161a6bd337ef2134a860a14ad27b022c9612d7ba7df6a1797";
