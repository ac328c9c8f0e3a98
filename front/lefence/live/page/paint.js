// Paints many filled boxes: with WebGL, or on a plain canvas where that is not there.
"use strict";

const VERTEX = `#version 300 es
uniform vec2 size;
in vec4 box;
in vec4 colour;
out vec4 shade;
void main() {
  vec2 corner = vec2(gl_VertexID & 1, gl_VertexID >> 1);
  vec2 place = (box.xy + corner * box.zw) / size;
  gl_Position = vec4(2.0 * place.x - 1.0, 1.0 - 2.0 * place.y, 0.0, 1.0);
  shade = colour;
}`;
const FRAGMENT = `#version 300 es
precision mediump float;
in vec4 shade;
out vec4 pixel;
void main() { pixel = vec4(shade.rgb * shade.a, shade.a); }`;

// Boxes in pixels, and colours as numbers 0xAABBGGRR, which a painter paints in one call.
export class Boxes {
  constructor() {
    this.count = 0;
    this.reserve(1024);
  }

  reserve(count) {
    const boxes = new Float32Array(4 * count), colours = new Uint32Array(count);
    if (this.count) {
      boxes.set(this.boxes.subarray(0, 4 * this.count));
      colours.set(this.colours.subarray(0, this.count));
    }
    Object.assign(this, { boxes, colours });
  }

  add(x, y, wide, high, colour) {
    if (this.count === this.colours.length) this.reserve(2 * this.count);
    const at = 4 * this.count, { boxes } = this;
    boxes[at] = x;
    boxes[at + 1] = y;
    boxes[at + 2] = wide;
    boxes[at + 3] = high;
    this.colours[this.count] = colour;
    this.count += 1;
  }
}

class GlPainter {
  constructor(canvas, gl) {
    Object.assign(this, { canvas, gl, name: "WebGL", most: 300000, isLost: false });
    canvas.addEventListener("webglcontextlost", (event) => { event.preventDefault(); this.isLost = true; });
    canvas.addEventListener("webglcontextrestored", () => { this.isLost = false; this.begin(); });
    this.begin();
  }

  begin() {
    const { gl } = this, program = gl.createProgram();
    for (const [kind, text] of [[gl.VERTEX_SHADER, VERTEX], [gl.FRAGMENT_SHADER, FRAGMENT]]) {
      const shader = gl.createShader(kind);
      gl.shaderSource(shader, text);
      gl.compileShader(shader);
      gl.attachShader(program, shader);
    }
    gl.linkProgram(program);
    if (!gl.getProgramParameter(program, gl.LINK_STATUS)) throw new Error(gl.getProgramInfoLog(program));
    gl.useProgram(program);
    this.size = gl.getUniformLocation(program, "size");
    this.buffers = ["box", "colour"].map((name) => {
      const buffer = gl.createBuffer(), at = gl.getAttribLocation(program, name);
      gl.bindBuffer(gl.ARRAY_BUFFER, buffer);
      gl.enableVertexAttribArray(at);
      gl.vertexAttribPointer(at, 4, name === "box" ? gl.FLOAT : gl.UNSIGNED_BYTE, name === "colour", 0, 0);
      gl.vertexAttribDivisor(at, 1);
      return buffer;
    });
    gl.enable(gl.BLEND);
    gl.blendFunc(gl.ONE, gl.ONE_MINUS_SRC_ALPHA);
  }

  paint(list, wide, high) {
    const { gl, canvas } = this;
    if (this.isLost) return;
    gl.viewport(0, 0, canvas.width, canvas.height);
    gl.clearColor(0, 0, 0, 0);
    gl.clear(gl.COLOR_BUFFER_BIT);
    if (!list.count) return;
    gl.uniform2f(this.size, wide, high);
    gl.bindBuffer(gl.ARRAY_BUFFER, this.buffers[0]);
    gl.bufferData(gl.ARRAY_BUFFER, list.boxes.subarray(0, 4 * list.count), gl.STREAM_DRAW);
    gl.bindBuffer(gl.ARRAY_BUFFER, this.buffers[1]);
    gl.bufferData(gl.ARRAY_BUFFER, list.colours.subarray(0, list.count), gl.STREAM_DRAW);
    gl.drawArraysInstanced(gl.TRIANGLE_STRIP, 0, 4, list.count);
  }
}

class PlainPainter {
  constructor(canvas) {
    Object.assign(this, { canvas, pen: canvas.getContext("2d"), name: "canvas", most: 40000 });
  }

  paint(list) {
    const { pen, canvas } = this, ratio = window.devicePixelRatio || 1;
    pen.setTransform(1, 0, 0, 1, 0, 0);
    pen.clearRect(0, 0, canvas.width, canvas.height);
    pen.setTransform(ratio, 0, 0, ratio, 0, 0);
    let last = null;
    for (let each = 0; each < list.count; each += 1) {
      const colour = list.colours[each];
      if (colour !== last) pen.fillStyle = `rgb(${colour & 255} ${(colour >>> 8) & 255} ${(colour >>> 16) & 255} / ${(colour >>> 24) / 255})`;
      last = colour;
      pen.fillRect(list.boxes[4 * each], list.boxes[4 * each + 1], list.boxes[4 * each + 2], list.boxes[4 * each + 3]);
    }
  }
}

// A painter of a canvas. `?canvas` in the address asks for the plain one.
export function painterOf(canvas) {
  const isPlain = new URLSearchParams(location.search).has("canvas");
  const gl = isPlain ? null : canvas.getContext("webgl2", { antialias: false, premultipliedAlpha: true });
  return gl ? new GlPainter(canvas, gl) : new PlainPainter(canvas);
}
