# Sourced: readelf looks for an index by its section, so it is given an image with a section header more. Needs perl.

# with_index_section: the image on standard input with a section header more, for the index that its program header names (SHT_ARM_EXIDX,
# PT_ARM_EXIDX)
with_index_section() {
    perl -0777 -e '
        my $image = <STDIN>;
        my ($programs, $sections, $program_count, $section_count) = unpack("x28 V2 x8 v x2 v", $image);
        for my $i (0 .. $program_count - 1) {
            my ($type, $offset, $address, undef, $size) = unpack("V5", substr($image, $programs + 32 * $i, 20));
            next if $type != 0x70000001;
            my $headers = substr($image, $sections, 40 * $section_count);
            substr($image, 32, 4) = pack("V", length $image);
            substr($image, 48, 2) = pack("v", $section_count + 1);
            $image .= $headers . pack("V10", 0, 0x70000001, 0x82, $address, $offset, $size, 1, 0, 4, 0);
        }
        print $image;
    '
}
