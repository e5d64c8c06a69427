with Ada.Finalization; with Ada.Text_IO; with Ada.Unchecked_Deallocation;
procedure Main is
   type Point is record X : Integer := 1; Y : Integer := 2; end record;
   type Node is record Spot : Point; Weight : Integer := 0; end record;
   type Link is access Node;
   type Holder is new Ada.Finalization.Controlled with record Head : Link; end record;
   overriding procedure Adjust (Object : in out Holder);
   overriding procedure Finalize (Object : in out Holder);
   procedure Free is new Ada.Unchecked_Deallocation (Node, Link);
   procedure Adjust (Object : in out Holder) is
   begin
      Object.Head := null;
   end Adjust;
   procedure Finalize (Object : in out Holder) is
   begin
      Free (Object.Head);
   end Finalize;
   P : Point;
   A : Holder;
   B : Holder;
begin
   P.X := 5;
   A.Head := new Node'(Spot => P, Weight => 3);
   B := A;
   Ada.Text_IO.Put_Line (Integer'Image (A.Head.Spot.X));
   if B.Head = null then
      Ada.Text_IO.Put_Line ("none");
   end if;
end Main;
