/* mGBA's side: runs a cartridge from power-on for some frames and hands back the last picture. */
#include <mgba/flags.h>

#include <mgba/core/config.h>
#include <mgba/core/core.h>
#include <mgba/core/log.h>
#include <mgba/core/version.h>
#include <mgba/gb/core.h>
#include <mgba-util/vfs.h>

#include <stdarg.h>
#include <stdbool.h>
#include <stdint.h>
#include <stdio.h>
#include <string.h>

_Static_assert(BYTES_PER_PIXEL == 4, "mGBA is built for another form of colours: see to_15_bits");

enum { PLACES = 160 * 144 };

static color_t picture[PLACES];

static void say_nothing(struct mLogger* logger, int category, enum mLogLevel level, const char* format, va_list args) {
	(void) logger, (void) category, (void) level, (void) format, (void) args;
}

static struct mLogger silent = { .log = say_nothing };

/* The device, no boot ROM, four greys for the background and both sprite palettes; no file of settings is read. */
static void configure(struct mCore* core, bool colour, const uint32_t greys[4]) {
	const char* model = colour ? "CGB" : "DMG";
	struct mCoreOptions options = { .skipBios = true, .useBios = false };
	mCoreInitConfig(core, NULL);
	mCoreConfigLoadDefaults(&core->config, &options);
	mCoreConfigSetOverrideValue(&core->config, "gb.model", model);
	mCoreConfigSetOverrideValue(&core->config, "cgb.model", model);
	mCoreConfigSetOverrideIntValue(&core->config, "gb.colors", 0);
	for (int i = 0; i < 12; ++i) {
		char key[16];
		snprintf(key, sizeof key, "gb.pal[%d]", i);
		mCoreConfigSetOverrideUIntValue(&core->config, key, greys[i % 4]);
	}
	mCoreLoadForeignConfig(core, &core->config);
}

/* A colour as mGBA keeps it on the screen, back to 5 bits a channel: red lowest. */
static uint16_t to_15_bits(color_t color) {
	return M_RGB8_TO_BGR5(color);
}

/* Runs until the program says in FF80 that the display is on, then three frames: mGBA may skip the first. */
static int run(struct mCore* core) {
	int wait = 60;
	core->reset(core);
	do {
		core->runFrame(core);
	} while (core->busRead8(core, 0xFF80) != 1 && --wait);
	for (int i = 0; i < 3; ++i) {
		core->runFrame(core);
	}
	return wait;
}

/* Whether mGBA ran the cartridge, on a colour device or on a DMG; the picture goes to `out`, 15 bits a place. */
int mgba_picture(const uint8_t* rom, size_t size, bool colour, const uint32_t greys[4], uint16_t* out) {
	mLogSetDefaultLogger(&silent);
	struct mCore* core = GBCoreCreate();
	if (!core || !core->init(core)) {
		return 0;
	}
	configure(core, colour, greys);
	memset(picture, 0, sizeof picture);
	core->setVideoBuffer(core, picture, 160);
	int taken = core->loadROM(core, VFileFromConstMemory(rom, size)) && run(core);
	for (int i = 0; i < PLACES; ++i) {
		out[i] = to_15_bits(picture[i]);
	}
	mCoreConfigDeinit(&core->config);
	core->deinit(core);
	return taken;
}

const char* mgba_version(void) {
	return projectVersion;
}
