"""Makes a script of the calls of OpenGL that `apitrace dump --thread-ids=yes` prints: from_gl.py < CALLS > SCRIPT.

A range is what a buffer, a texture or a renderbuffer holds, in bytes. A texture is one range for all of its images: it
is requested at the first draw after they were given. Where an object is given another size, its range is freed and
requested anew. A texel takes what its format says; one of three components takes that of four."""
import re, sys
from script import Script

COMPONENTS = {"R": 1, "RED": 1, "RG": 2, "RGB": 4, "RGBA": 4, "BGR": 4, "BGRA": 4, "SRGB": 4, "SRGB_ALPHA": 4, "ALPHA": 1,
              "LUMINANCE": 1, "INTENSITY": 1, "LUMINANCE_ALPHA": 2, "STENCIL_INDEX": 1, "1": 1, "2": 2, "3": 4, "4": 4}
# bytes of a texel where the rule below does not say them
TEXELS = {"RGB10_A2": 4, "RGB10": 4, "RGB5_A1": 2, "RGB5": 2, "RGB565": 2, "RGBA4": 2, "R11F_G11F_B10F": 4, "RGB9_E5": 4,
          "DEPTH24_STENCIL8": 4, "DEPTH32F_STENCIL8": 8, "DEPTH_STENCIL": 4, "DEPTH_COMPONENT": 4, "DEPTH_COMPONENT16": 2,
          "DEPTH_COMPONENT24": 4, "DEPTH_COMPONENT32": 4, "DEPTH_COMPONENT32F": 4, "SRGB8_ALPHA8": 4, "RGB10_A2UI": 4}
ENDING = re.compile(r"(ARB|EXT|OES|ANGLE|APPLE|NV)$")
CALL = re.compile(r"\d+ (?:@(\d+) )?(\w+)\((.*)\)(?: = (\S+))?")
DRAWS = re.compile(r"gl(Multi)?(Draw|Begin|CallList)|(glX|egl)SwapBuffers|glClear$|glBlit")


def texel(name):
    name = re.sub(r"^GL_|_(EXT|ARB|OES)$", "", name)
    if name in TEXELS:
        return TEXELS[name]
    if "COMPRESSED" in name:
        return 0.5 if re.search("DXT1|RGTC1|RGB8_ETC2", name) else 1
    known = re.fullmatch(r"([A-Z_]+?|\d)(8|16|32)?(?:F|I|UI|_SNORM)?", name)
    if not known or known[1] not in COMPONENTS:
        sys.exit(f"what does a texel of {name} take?")
    base, bits = known.groups()
    return COMPONENTS[base] * int(bits or 8) // 8


def named(text):
    """The arguments of a call: pairs of a name and a text."""
    found, depth, start = {}, 0, 0
    for i, c in enumerate(text + ","):
        depth += (c in "({[") - (c in ")}]")
        if c == "," and depth == 0:
            name, _, value = text[start:i].strip().partition(" = ")
            found[name] = value
            start = i + 1
    return found


def names(args):
    return [int(x) for x in re.findall(r"\d+", list(args.values())[1])]


class Context:
    def __init__(self, group):
        # group: the objects that contexts share
        self.group, self.bound, self.unit, self.array, self.saved = group, {}, "0", "0", []


script = Script()
contexts, current, groups = {}, {}, 0
# the bytes of each image of a texture, the sizes of its first images, and the textures that were given some since the last draw
images, bases, waiting = {}, {}, {}


def settle():
    for key in waiting:
        script.resize(key, sum(images.get(key, {}).values()))
    waiting.clear()


def give(key, place, size):
    """An image of a texture, or the whole storage of an object that has no images."""
    images.setdefault(key, {})[place] = int(size)
    waiting[key] = True


def levels(target, base, count=99):
    """The bytes of the levels below the first, down to one texel. An array has as many layers on each."""
    w, h, d, each = base
    layers, d = (d, 1) if "ARRAY" in target else (1, d)
    for level in range(1, count):
        if max(w, h, d) == 1:
            break
        w, h, d = max(1, w // 2), max(1, h // 2), max(1, d // 2)
        yield level, w * h * d * layers * each


for line in sys.stdin:
    match = CALL.match(line)
    if not match:
        continue
    thread, call, text, result = match.groups()
    if DRAWS.match(call):
        settle()
        if script.full:
            break
        continue
    call = ENDING.sub("", call)
    if re.match(r"(glX|egl)(CreateContext|CreateNewContext|MakeCurrent|MakeContextCurrent)", call):
        args = named(text)
        if "Create" in call:
            share = next((args[k] for k in ("shareList", "share_list", "share_context") if k in args), "NULL")
            groups += 1
            contexts[result] = Context(contexts[share].group if share in contexts else groups)
        else:
            ctx = args.get("ctx", "NULL")
            current[thread] = contexts.setdefault(ctx, Context(ctx))
        continue
    if not re.match(r"gl(Bind|ActiveTexture|Buffer(Data|Storage)|Named|Tex|CompressedTex|CopyTexImage|Generate|Delete|Push|Pop|Render)", call):
        continue
    context = current.setdefault(thread, Context("none"))
    args = named(text)
    target = re.sub(r"CUBE_MAP_(POSITIVE|NEGATIVE)_.", "CUBE_MAP", args.get("target", ""))
    place = (context.unit if "TEXTURE" in target else context.array if "ELEMENT" in target else "") + target

    def key(kind, name=None):
        return kind, context.group, context.bound.get(place, 0) if name is None else name

    if call in ("glBindBuffer", "glBindBufferBase", "glBindBufferRange", "glBindTexture", "glBindRenderbuffer"):
        context.bound[place] = int(args.get("buffer") or args.get("texture") or args.get("renderbuffer"))
    elif call == "glBindVertexArray":
        context.array = args["array"]
    elif call == "glActiveTexture":
        context.unit = args["texture"]
    elif call == "glPushAttrib":
        context.saved.append((context.unit, dict(context.bound)) if "TEXTURE" in text or "ALL" in text else None)
    elif call == "glPopAttrib":
        saved = context.saved.pop() if context.saved else None
        if saved:
            context.unit = saved[0]
            context.bound.update({k: v for k, v in saved[1].items() if "TEXTURE" in k})
    elif call in ("glBufferData", "glBufferStorage"):
        script.resize(key("buffer"), int(args["size"]))
    elif call in ("glNamedBufferData", "glNamedBufferStorage"):
        script.resize(key("buffer", int(args["buffer"])), int(args["size"]))
    elif call.startswith(("glDeleteBuffers", "glDeleteTextures", "glDeleteRenderbuffers")):
        kind = {"B": "buffer", "T": "texture", "R": "renderbuffer"}[call[8]]
        for name in names(args):
            for table in (images, bases, waiting):
                table.pop(key(kind, name), None)
            script.resize(key(kind, name), 0)
    elif "PROXY" in target:
        pass
    elif re.match(r"gl(Tex|CopyTex|CompressedTex)Image\dD", call):
        size = [int(args.get(k, 1)) for k in ("width", "height", "depth")]
        each = texel(args["internalformat"])
        given = args.get("imageSize") or size[0] * size[1] * size[2] * each
        k = key("texture")
        give(k, (args["target"], int(args["level"])), given)
        if args["level"] == "0":
            bases.setdefault(k, {})[args["target"]] = *size, each
    elif re.match(r"glTex(ture)?Storage\dD", call):
        k = key("texture", int(args["texture"]) if "texture" in args else None)
        base = *[int(args.get(x, 1)) for x in ("width", "height", "depth")], texel(args["internalformat"])
        # an array of cubes has the faces in its depth
        faces = 6 if "CUBE" in target and "ARRAY" not in target else 1
        images[k] = {}
        give(k, (0, 0), base[0] * base[1] * base[2] * base[3] * faces)
        for level, size in levels(target, base, int(args["levels"])):
            give(k, (0, level), size * faces)
    elif re.match(r"glGenerate(Texture)?Mipmap", call):
        k = key("texture", int(args["texture"]) if "texture" in args else None)
        for face, base in bases.get(k, {}).items():
            for level, size in levels(face, base):
                give(k, (face, level), size)
    elif call.startswith(("glRenderbufferStorage", "glNamedRenderbufferStorage")):
        k = key("renderbuffer", int(args["renderbuffer"]) if "renderbuffer" in args else None)
        script.resize(k, int(args["width"]) * int(args["height"]) * texel(args["internalformat"]) * max(1, int(args.get("samples", 1))))
settle()
script.write()
