with Ada.Finalization; with Ada.Unchecked_Deallocation;
procedure Main is
   type Cell is record Value : Integer := 0; end record;
   type Ref is access Cell;
   type Pair is record Left : Ref; Right : Ref; end record;
   type Node is record Both : Pair; end record;
   type Link is access Node;
   type Doc is new Ada.Finalization.Controlled with record Head : Link; end record;
   overriding procedure Adjust (Object : in out Doc);
   overriding procedure Finalize (Object : in out Doc);
   procedure Free is new Ada.Unchecked_Deallocation (Node, Link);
   overriding procedure Adjust (Object : in out Doc) is
   begin
      Object.Head := new Node'(Both => Object.Head.Both);
   exception
      when others => Object.Head := null;
   end Adjust;
   overriding procedure Finalize (Object : in out Doc) is
   begin
      Free (Object.Head);
   end Finalize;
   One : Doc;
   Two : Doc;
begin
   One.Head := new Node;
   Two := One;
end Main;
