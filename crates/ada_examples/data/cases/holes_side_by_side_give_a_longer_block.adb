with Ada.Text_IO; with Ada.Unchecked_Deallocation; with Profile_Pools;
procedure Main is
Room : Profile_Pools.First_Fit_Pool (18);
type Small is record A : Integer := 0; end record;
type Small_Ref is access Small with Storage_Pool => Room;
procedure Free is new Ada.Unchecked_Deallocation (Small, Small_Ref);
type Pair is record A : Integer := 0; B : Boolean := True; end record;
type Pair_Ref is access Pair with Storage_Pool => Room;
procedure Free_Pair is new Ada.Unchecked_Deallocation (Pair, Pair_Ref);
type Triple is record P : Pair; C : Integer := 0; end record;
type Triple_Ref is access Triple with Storage_Pool => Room;
A : Pair_Ref := new Pair; B : Pair_Ref := new Pair; C : Pair_Ref := new Pair; D : Triple_Ref;
begin
Free_Pair (A); Free_Pair (C); Free_Pair (B);
for I in 1 .. 3 loop
D := new Triple;
Ada.Text_IO.Put_Line (Integer'Image (I));
end loop;
end Main;
