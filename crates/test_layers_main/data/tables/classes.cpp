// The classes of hierarchies.types and hierarchies.objects. Their type information, offsets and vtables are what clang++ 14.0.6 lays out for
// Armv6-M; g++ 12.2.0 lays out the same for 32 bits. Whether each pair in classes.txt and pointers.txt is caught is what a program does that
// throws and catches these types, built by g++ 12.2.0 and by clang++ 14.0.6. The rows on functions that don't throw or are transaction-safe
// follow the Itanium C++ ABI's __pbase_type_info flags.

// a chain
struct Root { int a; };
struct Middle : Root { int b; };
struct Leaf : Middle { int c; };
struct Leafier : Leaf { int d; };
struct Leafiest : Leafier { int e; };
// two bases
struct Left { int a; };
struct Right { int b; };
struct Both : Left, Right { int c; };
struct OverBoth : Both { int d; };
struct Stranger { int a; };
// five bases
struct One { int a; }; struct Two { int a; }; struct Three { int a; }; struct Four { int a; }; struct Five { int a; };
struct Wide : One, Two, Three, Four, Five { int b; };
struct Wider : Stranger, Wide { int c; };
// a diamond, not virtual
struct Top { int a; };
struct NLeft : Top { int b; };
struct NRight : Top { int c; };
struct NDiamond : NLeft, NRight { int d; };
struct NMiddle : Top { int c; };
struct NTriple : NLeft, NMiddle, NRight { int d; };
struct NUnder : NDiamond { int e; };
// a virtual one
struct VLeft : virtual Top { int b; };
struct VRight : virtual Top { int c; };
struct VDiamond : VLeft, VRight { int d; };
struct VUnder : VDiamond { int e; };
struct VMiddle : virtual Top { int c; };
struct VTriple : VLeft, VMiddle, VRight { int d; };
// a mixed one
struct MDiamond : VLeft, NRight { int d; };
struct MTurned : NLeft, VRight { int d; };
struct MTriple : VLeft, NMiddle, VRight { int d; };
// private and protected bases
struct Hiding : private Root { int b; };
struct Guarding : protected Root { int b; };
struct OverHiding : Hiding { int c; };
struct HidingMiddle : private Middle { int c; };
struct HalfHiding : Left, private Right { int c; };
struct HidingNDiamond : NLeft, private NRight { int d; };
// ways to a virtual base, some of them hidden
struct HiddenFirst : private VLeft, VRight { int d; };
struct HiddenSecond : VLeft, private VRight { int d; };
struct HiddenBoth : private VLeft, private VRight { int d; };
struct VHiding : private virtual Top { int b; };
struct VGuarding : protected virtual Top { int b; };
struct HidingAndOpen : VHiding, VRight { int d; };
struct OpenAndHiding : VRight, VHiding { int d; };
struct AllHiding : VHiding, VGuarding { int d; };
// a base and again through another base
struct Again : Middle, Root { int c; };
struct VAgain : VLeft, virtual Top { int c; };
struct VAgainHidden : VLeft, private virtual Top { int c; };
// a class with virtual functions over one without, and chains and pairs of them
struct Poly : Root { virtual ~Poly() {} int b; };
struct Talker { virtual ~Talker() {} int a; };
struct Shouter : Talker { int b; };
struct Crier : Shouter { int c; };
struct Walker { virtual ~Walker() {} int a; };
struct TalkingWalker : Talker, Walker { int b; };
struct SilentPair : Right, Talker { int b; };
// virtual bases that have bases, and virtual bases of these
struct Pack : Left, Root { int c; };
struct Carrier : virtual Pack { int d; };
struct Carried : Stranger, Carrier { int e; };
struct RootA : Root { int b; };
struct RootB : Root { int c; };
struct TwoRoots : virtual RootA, virtual RootB { int d; };
struct Deep0 { int a; };
struct Deep1 : virtual Deep0 { int b; };
struct Deep2 : virtual Deep1 { int c; };
struct Deep3 : Stranger, virtual Deep2 { int d; };
// diamonds over diamonds
struct Upper : VLeft { int e; };
struct OverDiamond : VDiamond, Upper { int f; };
struct Side : VRight { int e; };
struct OverSides : Upper, Side { int f; };
struct VUpper : virtual VLeft { int e; };
struct VSide : virtual VLeft, VRight { int f; };
struct OverVUppers : VUpper, VSide { int g; };
// classes without members
struct Empty {};
struct EmptyLeft : Empty {};
struct EmptyRight : Empty {};
struct EmptyBoth : EmptyLeft, EmptyRight {};
struct EmptyAndRoot : Root, Empty { int b; };
enum Colour { red };
