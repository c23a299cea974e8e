// Reads a GTIRB file with libprotobuf and writes it again with sorted maps, or reads it alone where no second file is
// named: what `recode` is timed beside.
#include <fstream>
#include <iterator>
#include <string>

#include <google/protobuf/io/coded_stream.h>
#include <google/protobuf/io/zero_copy_stream_impl_lite.h>

#include "gtirb.pb.h"

int main(int argc, char **argv) {
  if (argc != 2 && argc != 3) return 2;
  std::ifstream in(argv[1], std::ios::binary);
  std::string bytes((std::istreambuf_iterator<char>(in)), std::istreambuf_iterator<char>());
  if (bytes.size() < 8) return 1;
  gtirb::proto::IR ir;
  if (!ir.ParseFromArray(bytes.data() + 8, static_cast<int>(bytes.size() - 8))) return 1;
  if (argc == 2) return 0;
  std::string out = bytes.substr(0, 8);
  {
    google::protobuf::io::StringOutputStream stream(&out);
    google::protobuf::io::CodedOutputStream coded(&stream);
    coded.SetSerializationDeterministic(true);
    if (!ir.SerializeToCodedStream(&coded)) return 1;
  }
  std::ofstream(argv[2], std::ios::binary).write(out.data(), static_cast<std::streamsize>(out.size()));
  return 0;
}
