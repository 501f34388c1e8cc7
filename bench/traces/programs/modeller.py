"""Changes meshes in Blender's window, a step between two frames, and quits."""
import bpy, random

random.seed(7)
step = 0
MAKE = [
    lambda at: bpy.ops.mesh.primitive_uv_sphere_add(segments=random.choice([8, 16, 32, 64]), ring_count=16, location=at),
    lambda at: bpy.ops.mesh.primitive_cube_add(location=at),
    lambda at: bpy.ops.mesh.primitive_torus_add(location=at, major_segments=random.choice([12, 48, 96])),
    lambda at: bpy.ops.mesh.primitive_monkey_add(location=at),
    lambda at: bpy.ops.mesh.primitive_cylinder_add(vertices=random.randrange(3, 80), location=at),
    lambda at: bpy.ops.mesh.primitive_grid_add(x_subdivisions=random.randrange(4, 100), y_subdivisions=20, location=at),
]
CHANGE = [
    lambda: bpy.ops.object.modifier_add(type="SUBSURF"),
    lambda: bpy.ops.object.modifier_add(type="BEVEL"),
    lambda: bpy.ops.object.modifier_add(type="ARRAY"),
    lambda: bpy.ops.object.modifier_add(type="WIREFRAME"),
    lambda: bpy.ops.object.duplicate(),
    lambda: bpy.ops.object.shade_smooth(),
]
EDIT = [
    lambda: bpy.ops.mesh.subdivide(number_cuts=1),
    lambda: bpy.ops.mesh.inset(thickness=0.05),
    lambda: bpy.ops.mesh.extrude_faces_move(),
    lambda: bpy.ops.mesh.quads_convert_to_tris(),
]


def pick():
    found = [o for o in bpy.context.scene.objects if o.type == "MESH"]
    bpy.ops.object.select_all(action="DESELECT")
    one = random.choice(found)
    one.select_set(True)
    bpy.context.view_layer.objects.active = one
    return one, len(found)


def act():
    area = next(a for a in bpy.context.window_manager.windows[0].screen.areas if a.type == "VIEW_3D")
    area.spaces[0].shading.type = ["SOLID", "WIREFRAME", "MATERIAL"][step // 60 % 3]
    region = next(r for r in area.regions if r.type == "WINDOW")
    with bpy.context.temp_override(window=bpy.context.window_manager.windows[0], area=area, region=region):
        if bpy.context.mode == "EDIT_MESH":
            if random.random() < 0.4:
                return bpy.ops.object.mode_set(mode="OBJECT")
            bpy.ops.mesh.select_all(action="SELECT")
            return random.choice(EDIT)()
        if random.random() < 0.45:
            return random.choice(MAKE)([random.uniform(-6, 6) for _ in "xyz"])
        one, count = pick()
        if count > 25 or (count > 5 and random.random() < 0.25):
            bpy.ops.object.delete()
        elif len(one.data.vertices) < 4000 and random.random() < 0.3:
            bpy.ops.object.mode_set(mode="EDIT")
        elif len(one.data.vertices) < 4000 and len(one.modifiers) < 2:
            random.choice(CHANGE)()


def tick():
    global step
    step += 1
    if step > 120:
        bpy.ops.wm.quit_blender()
        return None
    act()
    return 0.05


bpy.app.timers.register(tick, first_interval=2)
