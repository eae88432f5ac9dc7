layout(local_size_x = 8, local_size_y = 8) in;
layout(std140, binding = 0) uniform Desk {
    mat4 to_world;
    vec3 eye;
    float dimmer;
}desk;
layout(binding = 0) uniform sampler2D depths;
layout(binding = 1) uniform sampler2D normals;
layout(binding = 2) uniform isampler2D materials;
layout(binding = 3) uniform samplerBuffer palette;
layout(binding = 4) uniform usamplerBuffer lists;
layout(binding = 5) uniform samplerBuffer rig;
layout(binding = 6) uniform samplerCubeArrayShadow shadows;
layout(rgba16f, binding = 0) writeonly uniform image2D picture;
layout(r32ui, binding = 1) uniform uimage2D load;
const int slots = 64;
struct Lamp {
    vec3 place;
    float reach;
    vec3 color;
    int shadow;
};
Lamp lamp_at(int number) {
    vec4 first = texelFetch(rig, 2 * number);
    vec4 second = texelFetch(rig, 2 * number + 1);
    return Lamp(first.xyz, first.w, second.rgb, int(second.a));
}

float visible(Lamp lamp, vec3 way) {
    if (lamp.shadow < 0) {
        return 1.;
    }
    return texture(shadows, vec4(-way, float(lamp.shadow)), length(way) / lamp.reach - 0.002);
}

vec3 world(ivec2 at, vec2 size) {
    vec3 seen = vec3((vec2(at) + 0.5) / size, texelFetch(depths, at, 0).r);
    vec4 place = desk.to_world * vec4(2. * seen - 1., 1.);
    return place.xyz / place.w;
}

void main() {
    ivec2 at = ivec2(gl_GlobalInvocationID.xy), size = imageSize(picture);
    if (at.x >= size.x || at.y >= size.y) {
        return;
    }
    int material = texelFetch(materials, at, 0).r;
    if (material < 0) {
        imageStore(picture, at, vec4(0.));
        return;
    }
    vec4 color = texelFetch(palette, 2 * material);
    vec4 gloss = texelFetch(palette, 2 * material + 1);
    vec3 place = world(at, vec2(size));
    vec3 normal = normalize(2. * texelFetch(normals, at, 0).xyz - 1.);
    vec3 to_eye = normalize(desk.eye - place);
    uvec2 tile = gl_WorkGroupID.xy;
    int list = slots * int(tile.y * gl_NumWorkGroups.x + tile.x);
    int count = min(int(texelFetch(lists, list).r), slots - 1);
    vec3 sum = vec3(0.);
    uint used = 0u;
    for (int i = 1; i <= count; i++) {
        Lamp lamp = lamp_at(int(texelFetch(lists, list + i).r));
        vec3 way = lamp.place - place;
        vec3 to_lamp = normalize(way);
        float facing = dot(normal, to_lamp);
        float near = 1. - dot(way, way) / (lamp.reach * lamp.reach);
        if (facing > 0. && near > 0.) {
            float shine = pow(max(dot(normal, normalize(to_lamp + to_eye)), 0.), gloss.a);
            sum += visible(lamp, way) * near * near * lamp.color * (facing * color.rgb + shine * gloss.rgb);
            used++;
        }
    }
    imageStore(picture, at, vec4(desk.dimmer * sum, 1.));
    imageAtomicAdd(load, ivec2(tile), used);
}
