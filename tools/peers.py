#!/usr/bin/env python3
"""peers.py FOLDER [REPEATS]: the proved build and second.c beside VTK and scikit-image, on the volumes of FOLDER, in one process.

FOLDER holds pore.vol, tray.vol and noise.vol, and as shared objects the library (library.so), second.c (second.so) and second.c as it
takes every piece (all.so); `make peers` puts them there. Times are processor time, the least of interleaved repeats; VTK runs on one
thread. The peers take every piece of a volume where the library and second.c follow one, and cut no cube into tetrahedra, so they make
fewer triangles for a surface. The level is 0.5, so that every side is the same. Needs Debian's python3-vtk9 and python3-skimage."""
import ctypes
import gc
import os
import sys
import time

import numpy
import skimage
import vtk
from skimage import measure
from vtk.util import numpy_support

VOLUMES = ['pore', 'tray', 'noise']
BASE = 'second.c'


class Triple(ctypes.Structure):
    """Sizes, or a cube."""
    _fields_ = [(name, ctypes.c_size_t) for name in 'xyz']


class Built(ctypes.Structure):
    """The library's answer."""
    _fields_ = [(name, ctypes.c_size_t) for name in ('number', 'vertices', 'triangles', 'cubes')]


class Answer(ctypes.Structure):
    """The answer of second.c."""
    _fields_ = [('number', ctypes.c_int32)] + [(name, ctypes.c_uint32) for name in ('vertices', 'triangles', 'cubes')]


def lent(array):
    """An array as two arguments."""
    return [ctypes.c_void_p(array.ctypes.data), ctypes.c_size_t(array.size)]


def counts(answer):
    if answer.number != 0:
        sys.exit(f'a build is refused: {answer.number}')
    return answer.vertices, answer.triangles


class Room:
    """Work room and output room of a lattice of 64 samples on each axis."""

    def __init__(self):
        samples, cubes = 64 ** 3, 63 ** 3
        self.words = numpy.zeros(cubes, numpy.uint16)
        self.waiting = numpy.zeros(cubes, numpy.uint32)
        self.slots = numpy.zeros(7 * samples, numpy.uint32)
        self.vertices = numpy.zeros(4 * 7 * samples, numpy.int32)
        self.triangles = numpy.zeros(3 * 12 * cubes, numpy.uint32)


def library(folder, room):
    call = ctypes.CDLL(os.path.join(folder, 'library.so')).malxuqeed_build
    call.restype = Built

    def prepare(sizes, samples):
        given = [Triple(*map(int, sizes)), ctypes.c_uint32(1), Triple(0, 0, 0), *lent(samples)]
        given += [*lent(room.vertices), *lent(room.triangles), *lent(room.words), *lent(room.waiting), *lent(room.slots)]
        return lambda: counts(call(*given))
    return prepare


def second(folder, name, room):
    shared = ctypes.CDLL(os.path.join(folder, name))
    shared.second_init()
    shared.second_build.restype = Answer

    def prepare(sizes, samples):
        given = [ctypes.c_void_p(sizes.ctypes.data), *lent(samples), ctypes.c_uint(1), None]
        given += [*lent(room.words), *lent(room.waiting), *lent(room.slots), *lent(room.vertices), *lent(room.triangles)]
        return lambda: counts(shared.second_build(*given))
    return prepare


def by_vtk(kind, **settings):
    def prepare(sizes, samples):
        image = vtk.vtkImageData()
        image.SetDimensions(*map(int, sizes))
        image.GetPointData().SetScalars(numpy_support.numpy_to_vtk(samples, deep=1))
        mesher = kind()
        mesher.SetInputData(image)
        mesher.SetValue(0, 0.5)
        for name, value in settings.items():
            getattr(mesher, 'Set' + name)(value)

        def run():
            mesher.Modified()
            mesher.Update()
            made = mesher.GetOutput()
            return made.GetNumberOfPoints(), made.GetNumberOfPolys()
        return run
    return prepare


def by_skimage(method):
    def prepare(sizes, samples):
        volume = samples.reshape(sizes[::-1]).astype(numpy.float32)

        def run():
            vertices, faces, _, _ = measure.marching_cubes(volume, 0.5, method=method)
            return len(vertices), len(faces)
        return run
    return prepare


def volume(folder, name):
    with open(os.path.join(folder, name + '.vol'), 'rb') as file:
        data = file.read()
    return numpy.frombuffer(data[:6], '<u2').copy(), numpy.frombuffer(data[6:], '<i2').copy()


def main(words):
    if len(words) not in (1, 2):
        sys.exit(__doc__)
    folder, repeats = words[0], int(words[1]) if len(words) == 2 else 40
    vtk.vtkSMPTools.SetBackend('Sequential')
    room = Room()
    bare = {'ComputeNormals': 0, 'ComputeGradients': 0, 'ComputeScalars': 0}
    few = max(2, repeats // 5)
    meshers = [
        (BASE, second(folder, 'second.so', room), repeats),
        ('library', library(folder, room), repeats),
        ('second.c, every piece', second(folder, 'all.so', room), repeats),
        ('VTK Flying Edges, bare', by_vtk(vtk.vtkFlyingEdges3D, **bare), repeats),
        ('VTK Flying Edges, as it comes', by_vtk(vtk.vtkFlyingEdges3D), few),
        ('VTK Marching Cubes, bare', by_vtk(vtk.vtkMarchingCubes, **bare), few),
        ('scikit-image, Lewiner', by_skimage('lewiner'), few),
        ('scikit-image, Lorensen', by_skimage('lorensen'), few),
    ]
    volumes = {name: volume(folder, name) for name in VOLUMES}
    runs = {(name, about): prepare(*volumes[about]) for name, prepare, _ in meshers for about in VOLUMES}
    least, made = {}, {}
    gc.disable()
    for repeat in range(repeats):
        for name, _, times in meshers:
            for about in VOLUMES if repeat < times else []:
                began = time.process_time()
                made[name, about] = runs[name, about]()
                spent = time.process_time() - began
                least[name, about] = min(spent, least.get((name, about), spent))
        gc.collect()
    print(f'VTK {vtk.vtkVersion.GetVTKVersion()}, scikit-image {skimage.__version__}; least of {repeats} repeats, {few} of slow ones')
    print(f'{"time / second.c, ms, triangles":30}' + ''.join(f'{about:>26}' for about in VOLUMES))
    for name, _, _ in meshers:
        cells = ((least[name, about] / least[BASE, about], least[name, about] * 1e3, made[name, about][1]) for about in VOLUMES)
        print(f'{name:30}' + ''.join(f'{ratio:7.2f} {spent:8.2f} {triangles:9}' for ratio, spent, triangles in cells))
    return 0


if __name__ == '__main__':
    sys.exit(main(sys.argv[1:]))
