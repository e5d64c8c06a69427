with Ada.Finalization; with Ada.Text_IO; with Ada.Unchecked_Deallocation;
procedure Main is
   type Node;
   type Link is access Node;
   type Node is record Value : Integer := 0; Next : Link; end record;
   type Pair is record First : Integer := 1; Second : Integer := 2; end record;
   type List is new Ada.Finalization.Limited_Controlled with record Head : Link; Now : Pair; end record;
   overriding procedure Finalize (Object : in out List);
   procedure Free is new Ada.Unchecked_Deallocation (Node, Link);
   procedure Drop (L : in out Link) is
   begin
      Free (L);
   end Drop;
   procedure Swap (P : in out Pair) is
   begin
      P := Pair'(First => P.Second, Second => P.First);
   end Swap;
   overriding procedure Finalize (Object : in out List) is
      Mine : Link;
   begin
      Swap (Object.Now);
      Mine := Object.Head;
      Object.Head := null;
      Drop (Mine);
   end Finalize;
   A : List;
begin
   Swap (A.Now);
   Ada.Text_IO.Put_Line ("never");
end Main;
