with Ada.Text_IO; with Ada.Unchecked_Deallocation; with Profile_Pools;
procedure Main is
Room : Profile_Pools.First_Fit_Pool (12);
type Small is record A : Integer := 0; end record;
type Small_Ref is access Small with Storage_Pool => Room;
procedure Free is new Ada.Unchecked_Deallocation (Small, Small_Ref);
type Pair is record A : Integer := 0; B : Boolean := True; end record;
type Pair_Ref is access Pair with Storage_Pool => Room;
procedure Free_Pair is new Ada.Unchecked_Deallocation (Pair, Pair_Ref);
type Triple is record P : Pair; C : Integer := 0; end record;
type Triple_Ref is access Triple with Storage_Pool => Room;
A : Triple_Ref; B : Small_Ref; C : Small_Ref;
begin
A := new Triple; Ada.Text_IO.Put_Line ("seven words");
B := new Small; Ada.Text_IO.Put_Line ("five words");
Free (B);
C := new Small; Ada.Text_IO.Put_Line ("five words again");
B := new Small; Ada.Text_IO.Put_Line ("never written");
end Main;
