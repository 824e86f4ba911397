# The archives and their headers, for the Makefiles one folder down: paths are from there.

LIB_DIR ?= ../../target/staticlib
DECODER = $(LIB_DIR)/libdecoder.a
ARCHIVES = $(DECODER) $(LIB_DIR)/libsound.a
INCLUDE = ../../include
DECODER_HEADER = $(INCLUDE)/virtio_video_decoder.h
HEADERS = $(DECODER_HEADER) $(INCLUDE)/virtio_sound_output.h

.DEFAULT_GOAL = all

$(ARCHIVES): $(LIB_DIR)/lib%.a:
	@echo "$@ is not there: run 'tools/build.sh $*' in the root of the repository" >&2
	@exit 1
