layout(std140, binding = 0) uniform Camera {
    mat4 view;
    mat4 projection;
    vec4 planes[6];
}camera;
layout(location = 0) uniform mat4 model;
layout(location = 4) uniform highp vec3 light;
layout(location = 0) in vec3 position;
layout(location = 1) in vec3 normal;
layout(location = 2) in vec2 corner;
layout(location = 0) out vec3 bent;
layout(location = 1) smooth out vec2 place;
layout(location = 2) out vec3 to_light;
layout(location = 3) flat out int side;
invariant gl_Position;
const float scales[3] = { 1., 0.5, 0.25 };
mat3 rotation(mat4 whole) {
    return mat3(whole[0].xyz, whole[1].xyz, whole[2].xyz);
}

int outside(vec4 point) {
    int count = 0, i = 0;
    while (i < 6) {
        count += dot(camera.planes[i++], point) < 0. ? 1 : 0;
    }
    return count;
}

void main() {
    mat4 to_view = camera.view * model;
    vec4 seen = to_view * vec4(position * scales[0], 1.);
    bent = normalize(transpose(inverse(rotation(to_view))) * normal);
    place = corner;
    side = outside(seen) > 0 ? -1 : 1;
    to_light = light - seen.xyz / seen.w;
    gl_Position = camera.projection * seen;
}
