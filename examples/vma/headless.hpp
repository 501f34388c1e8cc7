// What VMA's tests take from Windows, for a system that has none. It is included before them.
#pragma once
#include <vulkan/vulkan.h>

#include <algorithm>
#include <atomic>
#include <cassert>
#include <chrono>
#include <climits>
#include <cmath>
#include <condition_variable>
#include <cstdint>
#include <cstdio>
#include <cstdlib>
#include <cstring>
#include <ctime>
#include <cwchar>
#include <iterator>
#include <mutex>
#include <string>
#include <thread>

#define ZeroMemory(at, size) std::memset(at, 0, size)
#define _countof(array) std::size(array)
#define wprintf(...) ((void)0) // progress; it would close stdout to what is printed in bytes
#define TRUE 1
#define FALSE 0
#define INFINITE 0xffffffff
#define MAX_PATH 260
#define MAXIMUM_WAIT_OBJECTS 64

inline std::chrono::high_resolution_clock::time_point threadTime() {
    std::timespec now;
    clock_gettime(CLOCK_THREAD_CPUTIME_ID, &now);
    const auto time = std::chrono::seconds(now.tv_sec) + std::chrono::nanoseconds(now.tv_nsec);
    return std::chrono::high_resolution_clock::time_point(time);
}
inline uint32_t GetTickCount() { return uint32_t(std::time(nullptr)); }
inline void Sleep(unsigned ms) { std::this_thread::sleep_for(std::chrono::milliseconds(ms)); }
inline void localtime_s(std::tm *out, const std::time_t *time) { *out = *std::localtime(time); }
inline void strcpy_s(char *to, size_t size, const char *from) { std::snprintf(to, size, "%s", from); }
inline void fopen_s(FILE **file, const char *name, const char *mode) { *file = std::fopen(name, mode); }
inline uint64_t align_up(unsigned long size, unsigned long long by) { return (size + by - 1) / by * by; } // two types here
template <size_t size, class... T> int swprintf_s(wchar_t (&to)[size], const wchar_t *form, T... parts) {
    return std::swprintf(to, size, form, parts...);
}

struct Event {
    std::mutex mutex;
    std::condition_variable changed;
    bool set = false, stays;
};
typedef Event *HANDLE;

inline HANDLE CreateEvent(void *, bool stays, bool set, const char *) {
    HANDLE event = new Event;
    event->stays = stays, event->set = set;
    return event;
}
inline void SetEvent(HANDLE event) {
    const std::lock_guard<std::mutex> lock(event->mutex);
    event->set = true;
    event->changed.notify_all();
}
inline void WaitForSingleObject(HANDLE event, uint32_t) {
    std::unique_lock<std::mutex> lock(event->mutex);
    event->changed.wait(lock, [&] { return event->set; });
    event->set = event->stays;
}
inline void WaitForMultipleObjects(size_t count, HANDLE *events, bool, uint32_t time) {
    for (size_t i = 0; i < count; i++) WaitForSingleObject(events[i], time);
}
inline bool CloseHandle(HANDLE event) {
    delete event;
    return true;
}
