precision mediump float;
struct Tap {
    vec2 offset;
    float weight;
};
uniform sampler2D picture;
layout(location = 1) uniform int mode;
layout(location = 2) uniform Tap taps[5];
layout(location = 0) in vec2 place;
layout(location = 0) out vec4 color;
float luminance(in vec3 c);
void adjust(inout vec3 c, const int way) {
    switch (way) {
        case 0:
        c = vec3(luminance(c));
        break;
        case 1:
        c = 1. - c;
        break;
        default:
        c *= c * (3. - 2. * c);
    }
}

float luminance(in vec3 c) {
    return dot(c, vec3(0.299, 0.587, 0.114));
}

void main() {
    vec3 sum = vec3(0.);
    float weights = 0.;
    for (int i = 0; i < 5; ++i) {
        Tap tap = taps[i];
        if (tap.weight <= 0.) {
            continue;
        }
        sum += texture(picture, place + tap.offset).rgb * tap.weight;
        weights += tap.weight;
    }
    if (weights > 0.) {
        sum /= weights;
    } else {
        sum = texture(picture, place).rgb;
    }
    adjust(sum, mode);
    uint bits = uint(255. * clamp(sum.r, 0., 1.));
    bool dark = (bits & 240u) == 0u && !(mode == 1);
    color = vec4(dark ? vec3(0.) : sum, 1.);
}
