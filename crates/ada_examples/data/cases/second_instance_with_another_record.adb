with Ada.Unchecked_Deallocation;
procedure Main is
type N is record V : Integer := 0; end record;
type O is record V : Integer := 0; end record;
type L is access N;
procedure F is new Ada.Unchecked_Deallocation (N, L);
procedure G is new Ada.Unchecked_Deallocation (O, L);
begin null; end Main;
