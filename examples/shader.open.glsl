uniform Light {
    vec3 direction;
    float ambient;
}light;
in vec3 normal;
out vec4 color;
float shade(vec3 n) {
    float sum = light.ambient;
    for (int i = 0; i < 4; i++) {
        float d = dot(n, light.direction) - 0.25 * float(i);
        if (d > 0.) {
            sum += d;
        } else {
            sum -= d * (1. - light.ambient);
        }
    }
    return sum / 4.;
}

void main() {
    color = vec4(vec3(shade(normal)), 1.);
}
