uniform sampler2D image;
layout(location = 1) uniform int rows;
layout(location = 0) in vec2 place;
layout(location = 0) out vec4 color;
vec2 tile(vec2 at, int n) {
    vec2 scaled = at * float(n);
    int k = int(scaled.y) + 1;
    int row = n - --k;
    return vec2(fract(scaled.x), (float(row) - fract(scaled.y)) / float(rows));
}

void main() {
    if (place.y < 0. || place.y >= 1.) {
        discard;
    }
    color = texture(image, tile(place, rows));
}
